/* What is tested with no tag. */
#ifndef PLAIN_H
#define PLAIN_H

/* Number 24, for each reason. */
void builder_refusals(void);

/* Published vectors, each form undone, and number 8. */
void cipher_and_chaining(void);

/* 64 MB through each form of chaining and through the MAC, in a thread that has 64 KB of stack. */
void large_inputs(void);

#endif
