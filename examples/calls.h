/* The calls of the flat machine, and text that is collected and written in pieces. */
#ifndef CALLS_H
#define CALLS_H

#ifdef __cplusplus
extern "C" {
#endif

/* Puts at most `count` bytes of the input at `bytes`. Answers how many; 0 at its end. */
int read_input(void *bytes, int count);

/* The next byte of the input, or -1 at its end. */
int next_byte(void);

void put_byte(int byte);
void put_text(const char *text);
void put_number(int number);

/* Writes what is collected. Call it once more at the end. */
void flush(void);

#ifdef __cplusplus
}
#endif

#endif
