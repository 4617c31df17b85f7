/* Where the proved programs are that the harness starts. */
#ifndef PROGRAM_H
#define PROGRAM_H

/* What `variable` of the environment names, else the program of this name that stands beside the
 * harness's own, else its name, where the PATH has one. Where there is none, the harness gives up, and
 * says how one is named. */
const char *program_of(const char *variable, const char *name);

#endif
