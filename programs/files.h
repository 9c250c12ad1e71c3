/*
 * files.h: what the programs for people share: options, words, files, signals.
 *
 * A program reads one file, its input, which is mapped and never written to, by
 * whatever name or link.  It may write another, its output, whole or not at all:
 * what is written goes to a temporary file beside it, which takes its name once
 * it is on the disk, and is removed where anything fails or a signal ends the
 * program.  C11 and POSIX.1-2008.
 */
#ifndef FILES_H
#define FILES_H

#include <stdbool.h>
#include <stddef.h>
#include <stdint.h>
#include <sys/stat.h>

/* Exit statuses. */
enum { DONE = 0, REFUSED = 1, MISUSED = 2, FAILED = 3 };

/* Progress is told of files of so many bytes and more. */
enum { LARGE = 64 * 1024 * 1024 };

typedef struct {
    const char *name;
    struct stat found;
    const uint8_t *bytes;
    size_t len;
} Input;

typedef struct {
    int fd;
    uint8_t *bytes;
    size_t len;
} Output;

/*
 * Takes the options in front (-q, --quiet, --help, --), and gives the place of
 * the first word after them.  `name` is the program's, `help` its help text.
 */
int take_options(int argc, char **argv, const char *name, const char *help);

/* The signals that end a program remove its temporary file first. */
void catch_signals(void);

/* Says what is wrong with the thing of this name, and why where that is known. */
_Noreturn void leave(int status, const char *name, const char *what, const char *why);
_Noreturn void leave_failed(const char *name, const char *what);
_Noreturn void leave_misused(const char *name, const char *what);

/* On standard error, of large files, unless told to be quiet. */
void tell_progress(const char *what, size_t done, size_t of);

/* What was written to standard output is there, or the program fails. */
void flush_words(void);

Input open_input(const char *name);
void see_that_unchanged(const Input *in);

/* A large file is read from the disk before the work, which then takes moments. */
void read_ahead(const Input *in);

/* What the output's name is now, if anything, must be a file that may go, and not the input. */
void look_at_target(const char *name, const Input *in);

/* Room for len bytes: so a full disk shows here, and not in the work. */
Output make_output(const char *name, size_t len);

/* The first len bytes go to the disk, and then to the output's name. */
void finish_output(const Output *out, const char *name, const Input *in, size_t len);

#endif
