/* Coverage of the proved code, which is linked as the archive has it, without instrumentation. A trap is set on every
 * instruction; the first input that reaches one clears it, and is told to the fuzzer as having found something new.
 * So a trap costs time once, and the code runs unchanged behind it. */
#ifndef TRAPS_H
#define TRAPS_H

/* Sets the traps, and says at the exit how many were reached. */
void set_traps(void);

#endif
