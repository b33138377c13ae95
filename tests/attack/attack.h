/* What the parts of the attack share: a call as a row of a table, what it is asked, and what is seen of it. */
#ifndef ATTACK_H
#define ATTACK_H

#include "clpi.h"

enum { MOST_IN = 6, MOST_OUT = 9, MOST_ARGUMENTS = 8, MOST_NUMBERS = 22 };

/* Where an accepted file's letters and the rows of table 1 stand among the numbers of reading. */
enum { LETTERS = 3, COUNTS = 12 };

/* Bytes that are lent to a call. */
struct buffer {
    uint8_t *at;
    size_t bytes;
};

/* What a call is asked. The inputs are copied to the places where they are lent; of an output only the room counts. */
struct ask {
    struct buffer in[MOST_IN];
    uint32_t rows[MOST_IN]; /* stated of each input */
    uint64_t argument[MOST_ARGUMENTS];
    size_t room[MOST_OUT];
};

/* What kind of number an argument is; a row number is one of the rows stated of a table, or the answer is 22. */
enum kind { NO_ARGUMENT, ROW, BYTE, WORD, CELL, LONG };

/* An exported call. Its answer is given as numbers, the refusal first. */
struct call {
    const char *name;
    void (*run)(const struct ask *a, const struct buffer *out, uint64_t *number);
    int table; /* a question: the number of the first table that it is of; else 0 */
    int ins, outs, numbers;
    uint8_t row_bytes[MOST_IN]; /* 0: a file, of which no rows are stated */
    uint8_t count_at[MOST_IN];  /* where a row has the count of the next table's rows that are its own; 0: nowhere */
    enum kind kind[2];
    int row_of;                   /* the table that a row number is of; -1: none */
    int finds;                    /* whether the answer is a value that may not be found */
    uint8_t out_bytes[MOST_OUT];  /* of a row that is put out */
    int out_count;                /* which number is the count of the first output's rows; the others follow */
    uint64_t refusals;            /* a bit for each number that it may refuse by */
};

extern const struct call calls[];
extern const int call_count;

/* The call with a name. */
const struct call *call_named(const char *name);

/* What a call answered, and where its outputs stand until the next attempt. */
struct outcome {
    uint64_t number[MOST_NUMBERS];
    const uint8_t *out[MOST_OUT];
};

/* One ask, made several times, at other places and over other bytes each time. */
struct outcome attempt(const struct call *c, const struct ask *a);

/* How many attempts were made, and the call that is tried. */
extern unsigned long attempts;
extern const struct call *running;

/* Whether this is the short run, for valgrind. */
extern int is_short;

/* Ends the run: a call did what it must not. */
void found(const char *what);

/* Ends the run unless a thing is so. */
static inline void must(int is_so, const char *what)
{
    if (!is_so)
        found(what);
}

/* Sets up the places and what catches a call that leaves them or doesn't end. */
void prepare(void);

/* Memory of zeros with a closed page on either side, which may be read, or written too; NULL where there is none. */
uint8_t *wide(size_t bytes, int writable);
void give_back(uint8_t *at, size_t bytes);

/* Numbers from a fixed seed. */
uint32_t any(void);

/* Big-endian numbers of a file. */
void put_be(uint8_t *at, uint32_t value, int bytes);
uint32_t get_be(const uint8_t *at);

/* The parts of the attack. */
void attack_sizes(void);
void attack_records(void);
void attack_files(void);
void attack_questions(void);
void attack_rounding(void);

/* All that is tried on one file; tells whether it is accepted. How many were, and how many were rewritten. */
int try_file(const uint8_t *file, size_t bytes);
extern unsigned long files, accepted, rewritings;

#endif
