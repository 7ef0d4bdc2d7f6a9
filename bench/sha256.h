/* sha256.h: the SHA-256 of a file (FIPS 180-4), which names a vendor's library in the report. */
#ifndef SHA256_H
#define SHA256_H

#include <stdbool.h>

enum { SHA256_TEXT = 65 };

/* As hexadecimal digits; false if the file cannot be read. */
bool sha256_file(const char *path, char text[SHA256_TEXT]);

#endif
