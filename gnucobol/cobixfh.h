/* The handler, for COBOL sources whose first program has no file: GnuCOBOL forgets to declare it there. See README. */
#ifndef COBIXFH_H
#define COBIXFH_H
int cobixfh();
#endif
