/* Which blocks of the archive's machine code were reached. */
#ifndef TRAPS_H
#define TRAPS_H

/* Sets a trap at each block that the file names, one on a line, by its distance
 * from this function in decimal. What follows on the line is not read. */
void traps_set(const char *file);

#endif
