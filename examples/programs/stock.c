/* A stock of articles in the file stock.dat: by number, by the shelf where they lie, and by name.
 *
 *     cc stock.c $(pkg-config --cflags --libs cobix) -o stock
 *     ./stock add 4711 A-03 12 "hammer, 500 g"     a new article, and how many are there
 *     ./stock take 4711 5                          5 of them go out; -5: come in
 *     ./stock move 4711 B-01                       to another shelf
 *     ./stock drop 4711                            no longer kept
 *     ./stock list                                 all, by name
 *     ./stock shelf A-03                           what lies there
 *
 * A record is one line of text: 6 digits of the number, 4 characters of the shelf, 20 of the name, 6 digits of the count. */
#include <cobix.h>
#include <stdio.h>
#include <stdlib.h>
#include <string.h>

enum { NUMBER = 0, SHELF = 6, NAME = 10, COUNT = 30, LENGTH = 36 };
enum { BY_NUMBER, BY_SHELF, BY_NAME };

/* Ends the program where a verb was refused. exit() closes the file. */
static void done(const char *what, int answer)
{
    if (cobix_succeeded(answer))
        return;
    fprintf(stderr, "stock: %s: %s (%d)\n", what, cobix_message(answer), answer);
    exit(1);
}

static void usage(void)
{
    fputs("usage: stock add NUMBER SHELF COUNT NAME | take NUMBER COUNT | move NUMBER SHELF | drop NUMBER | list | shelf SHELF\n", stderr);
    exit(2);
}

static long number_of(const char *digits, long least)
{
    char *end;
    const long number = strtol(digits, &end, 10);
    if (end == digits || *end != '\0' || number < least || number > 999999)
        usage();
    return number;
}

/* Puts digits, with zeros before them, or text, with spaces behind it, into a record. */
static void put_number(char *record, size_t at, long number)
{
    char digits[7];
    snprintf(digits, sizeof digits, "%06ld", number);
    memcpy(record + at, digits, 6);
}

static void put_text(char *record, size_t at, size_t length, const char *text)
{
    const size_t given = strlen(text);
    memset(record + at, ' ', length);
    memcpy(record + at, text, given < length ? given : length);
}

static long number_at(const char *record, size_t at)
{
    char digits[7] = "";
    memcpy(digits, record + at, 6);
    return strtol(digits, NULL, 10);
}

/* Reads the article of a number into a record of our own, since the one that is delivered lasts until the next call. */
static void find(cobix_file *stock, long number, char *record)
{
    char value[6];
    const void *found;
    size_t length;
    put_number(value, 0, number);
    done("READ", cobix_read(stock, BY_NUMBER, value, &found, &length));
    memcpy(record, found, LENGTH);
}

static void print(const char *record)
{
    printf("%6ld  %.4s  %.20s %6ld\n", number_at(record, NUMBER), record + SHELF, record + NAME, number_at(record, COUNT));
}

static void add(cobix_file *stock, char **words)
{
    char record[LENGTH];
    put_number(record, NUMBER, number_of(words[0], 1));
    put_text(record, SHELF, 4, words[1]);
    put_number(record, COUNT, number_of(words[2], 0));
    put_text(record, NAME, 20, words[3]);
    done("WRITE", cobix_write(stock, record, LENGTH));
}

static void take(cobix_file *stock, char **words)
{
    char record[LENGTH];
    find(stock, number_of(words[0], 1), record);
    const long left = number_at(record, COUNT) - number_of(words[1], -999999);
    if (left < 0 || left > 999999) {
        fprintf(stderr, "stock: %ld are there\n", number_at(record, COUNT));
        exit(1);
    }
    put_number(record, COUNT, left);
    done("REWRITE", cobix_rewrite(stock, record, LENGTH));
    print(record);
}

static void move(cobix_file *stock, char **words)
{
    char record[LENGTH];
    find(stock, number_of(words[0], 1), record);
    put_text(record, SHELF, 4, words[1]);
    done("REWRITE", cobix_rewrite(stock, record, LENGTH));
}

static void drop(cobix_file *stock, char **words)
{
    char record[LENGTH];
    find(stock, number_of(words[0], 1), record);
    done("DELETE", cobix_delete(stock, record + NUMBER));
}

/* Prints articles from the position on, as long as the key of this length has the value. */
static void print_while(cobix_file *stock, const char *value, size_t length)
{
    const void *found;
    size_t size;
    int answer;
    while (cobix_succeeded(answer = cobix_read_next(stock, &found, &size)) && memcmp((const char *)found + SHELF, value, length) == 0)
        print(found);
    if (answer != COBIX_END)
        done("READ NEXT", answer);
}

static void list(cobix_file *stock)
{
    const int answer = cobix_start(stock, BY_NAME, COBIX_NOT_LESS, "\0", 1);
    if (answer == COBIX_NOT_FOUND)
        return;
    done("START", answer);
    print_while(stock, "", 0);
}

static void shelf(cobix_file *stock, char **words)
{
    char value[4];
    put_text(value, 0, sizeof value, words[0]);
    const int answer = cobix_start(stock, BY_SHELF, COBIX_EQUAL, value, sizeof value);
    if (answer != COBIX_NOT_FOUND) {
        done("START", answer);
        print_while(stock, value, sizeof value);
    }
}

static void perform(cobix_file *stock, int count, char **words)
{
    if (count == 5 && strcmp(words[0], "add") == 0)
        add(stock, words + 1);
    else if (count == 3 && strcmp(words[0], "take") == 0)
        take(stock, words + 1);
    else if (count == 3 && strcmp(words[0], "move") == 0)
        move(stock, words + 1);
    else if (count == 2 && strcmp(words[0], "drop") == 0)
        drop(stock, words + 1);
    else if (count == 1 && strcmp(words[0], "list") == 0)
        list(stock);
    else if (count == 2 && strcmp(words[0], "shelf") == 0)
        shelf(stock, words + 1);
    else
        usage();
}

int main(int count, char **words)
{
    const cobix_key keys[] = {
        {.offset = NUMBER, .length = 6}, {.offset = SHELF, .length = 4, .duplicates = true}, {.offset = NAME, .length = 20, .duplicates = true}};
    const cobix_description described = {.name = "stock.dat", .access = COBIX_DYNAMIC, .optional = true,
        .least = LENGTH, .greatest = LENGTH, .key_count = 3, .keys = keys};
    cobix *session;
    cobix_file *stock;
    done("this folder", cobix_open(".", NULL, &session));
    done("stock.dat", cobix_describe(session, &described, &stock));
    done("OPEN", cobix_open_file(stock, COBIX_IO));
    perform(stock, count - 1, words + 1);
    done("CLOSE", cobix_close_file(stock, false));
    done("the end", cobix_close(session));
    return 0;
}
