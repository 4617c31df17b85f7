/* What a program of the harness says on standard error, and how it ends where it can't go on. */
#ifndef SAY_H
#define SAY_H

/* The statuses that the programs end with. */
enum { STATUS_SOUND = 0, STATUS_FAULTS = 1, STATUS_FAILED = 2, STATUS_NO_VERDICT = 3 };

/* Says how the program is called in all that it says from now on. */
void speak_as(const char *name);

/* How it is called. */
const char *spoken_as(void);

/* Has the line with which the program gives up heard here, too, or no more where that is NULL. */
void also_tell_end(void (*hear)(const char *line));

/* Says one line: the program's name, and these words. */
void say(const char *form, ...) __attribute__((format(printf, 1, 2)));

/* Says what can't be done and why, and ends the program with STATUS_FAILED. The other threads end
 * with it, whatever they wait for. */
_Noreturn void give_up(const char *what, const char *why);

/* The same, where the system says why. */
_Noreturn void give_up_by_errno(const char *what);

#endif
