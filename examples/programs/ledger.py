#!/usr/bin/env python3
"""A ledger by double entry, in the files accounts.dat and postings.dat of a folder. Amounts are in cents.

usage: ledger.py FOLDER account NUMBER NAME                    opens an account
       ledger.py FOLDER post DATE DEBIT CREDIT AMOUNT TEXT     posts an amount to the debit of one account, the credit of another
       ledger.py FOLDER day DATE                               the postings of a day
       ledger.py FOLDER statement NUMBER                       the postings of an account
       ledger.py FOLDER balances                               what each account has; the sum of all is 0
"""
import sys

import cobix
from cobix import Field, Key


class Ledger:
    """Both files of a folder, open for changes until the end of `with`."""

    def __init__(self, folder):
        self.session = cobix.Session(folder)
        self.accounts = self.session.file(
            "accounts.dat", optional=True, keys=[Key("number")], fields=[Field("number", 4, int), Field("name", 24)])
        self.postings = self.session.file(
            "postings.dat", optional=True,
            keys=[Key("entry", 0, 14), Key("debit", duplicates=True), Key("credit", duplicates=True)],
            fields=[Field("date", 10), Field("number", 4, int), Field("debit", 4, int), Field("credit", 4, int),
                    Field("amount", 12, int), Field("text", 30)])

    def __enter__(self):
        self.accounts.open("i-o")
        self.postings.open("i-o")
        return self

    def __exit__(self, kind, error, trace):
        self.session.close()

    def open_account(self, number, name):
        self.accounts.write({"number": number, "name": name})

    def post(self, date, debit, credit, amount, text):
        """Posts it, as the last of its day. NotFound where one of the accounts is not there."""
        for number in (debit, credit):
            self.accounts.read(number)
        number = len(self.day(date)) + 1
        self.postings.write({"date": date, "number": number, "debit": debit, "credit": credit, "amount": amount, "text": text})

    def postings_from(self, value, key):
        """The postings from the first one on whose key has this value, or begins with it."""
        try:
            self.postings.start(value, key=key, relation="=")
        except cobix.NotFound:
            return
        yield from self.postings

    def day(self, date):
        """The postings of a day, as they were posted."""
        found = []
        for posting in self.postings_from(date.encode(), "entry"):
            if posting["date"] != date:
                break
            found.append(posting)
        return found

    def statement(self, account):
        """What each posting of an account adds to it, with the posting: by days, and as they were posted."""
        found = []
        for key, sign in (("debit", 1), ("credit", -1)):
            for posting in self.postings_from(account, key):
                if posting[key] != account:
                    break
                found.append((sign * posting["amount"], posting))
        return sorted(found, key=lambda it: (it[1]["date"], it[1]["number"]))

    def balances(self):
        """Each account, and its balance."""
        return [(account, sum(amount for amount, _ in self.statement(account["number"]))) for account in self.accounts]


def money(cents):
    return f"{'-' if cents < 0 else ''}{abs(cents) // 100}.{abs(cents) % 100:02}".rjust(12)


def main(folder, verb, *words):
    with Ledger(folder) as ledger:
        if verb == "account":
            number, name = words
            ledger.open_account(int(number), name)
        elif verb == "post":
            date, debit, credit, amount, text = words
            ledger.post(date, int(debit), int(credit), int(amount), text)
        elif verb == "day":
            for posting in ledger.day(*words):
                print(f"{posting['number']:4} {posting['debit']:04} from {posting['credit']:04}{money(posting['amount'])} {posting['text']}")
        elif verb == "statement":
            for amount, posting in ledger.statement(int(*words)):
                print(f"{posting['date']} {posting['number']:4}{money(amount)} {posting['text']}")
        elif verb == "balances":
            balances = ledger.balances()
            for account, balance in balances:
                print(f"{account['number']:04} {account['name']:24}{money(balance)}")
            print(f"{'all':29}{money(sum(balance for _, balance in balances))}")
        else:
            sys.exit(__doc__)


if __name__ == "__main__":
    if len(sys.argv) < 3:
        sys.exit(__doc__)
    try:
        main(*sys.argv[1:])
    except cobix.Error as error:
        sys.exit(f"ledger: {error}")
