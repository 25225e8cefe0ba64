/* What libmeasured.a offers C, on x86-64 Linux, for the measurements of measure/ alone. A pointer to bytes is never null and comes
   with how many there are; what a call writes to overlaps nothing else that it is given. */
#ifndef MEASURED_H
#define MEASURED_H

/* Every byte of the memory made 0xFF. */
void measured_fill(unsigned char *memory, unsigned long length);

/* The bytes from a place on copied over all of `out`; false, and nothing is written, where they do not all lie in the memory. */
_Bool measured_read(const unsigned char *memory, unsigned long length, unsigned long at, unsigned char *out, unsigned long room);

/* 512 bytes written over a sector; nothing is written where the memory does not have it. */
void measured_write(unsigned char *memory, unsigned long length, unsigned int sector, const unsigned char *bytes);

/* The sectors from the first to the last, both within, made 0xFF, those in groups that the map protects left alone; whether any
   was spared. */
_Bool measured_erase(unsigned char *memory, unsigned long length, const unsigned char *map, unsigned long groups, unsigned int first,
                     unsigned int last);

#endif
