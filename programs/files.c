/* files.c: what the programs for people share, see files.h. */
#define _POSIX_C_SOURCE 200809L

#include <errno.h>
#include <fcntl.h>
#include <signal.h>
#include <stdio.h>
#include <stdlib.h>
#include <string.h>
#include <sys/mman.h>
#include <unistd.h>

#include "files.h"

enum {
    /* Files are read and written in steps of so many bytes. */
    STEP = 4 * 1024 * 1024,
    NAME_LEN = 4096
};

static const char *program = "?";
static bool quiet;

/* ---- the temporary file, and leaving without it */

static char temporary[NAME_LEN];
static volatile sig_atomic_t unfinished;

static void remove_unfinished(void) {
    if (unfinished) {
        unfinished = 0;
        (void)unlink(temporary);
    }
}

/* The handler is gone by the time the signal comes again, and ends the program. */
static void on_signal(int number) {
    remove_unfinished();
    (void)raise(number);
}

/* A mapped page that cannot be had: the disk failed, or a file was cut short. */
static void on_lost_page(int number) {
    static const char words[] = ": a page of a file could not be read or written: was IN cut short meanwhile?\n";
    remove_unfinished();
    ssize_t told = write(STDERR_FILENO, program, strlen(program));
    told += write(STDERR_FILENO, words, sizeof words - 1);
    (void)told;
    (void)number;
    _exit(FAILED);
}

void catch_signals(void) {
    static const int ending[] = {SIGHUP, SIGINT, SIGQUIT, SIGTERM, SIGPIPE, SIGALRM, SIGUSR1, SIGUSR2, SIGXCPU};
    struct sigaction act;
    struct sigaction before;
    memset(&act, 0, sizeof act);
    (void)sigfillset(&act.sa_mask);
    act.sa_flags = (int)SA_RESETHAND;
    act.sa_handler = on_lost_page;
    (void)sigaction(SIGBUS, &act, NULL);
    act.sa_handler = on_signal;
    for (size_t i = 0; i < sizeof ending / sizeof ending[0]; i++) {
        /* What the caller ignores, as nohup does, stays ignored. */
        if (sigaction(ending[i], NULL, &before) == 0 && before.sa_handler != SIG_IGN) {
            (void)sigaction(ending[i], &act, NULL);
        }
    }
    /* A file that grows past a limit is then an error like any other. */
    (void)signal(SIGXFSZ, SIG_IGN);
}

_Noreturn void leave(int status, const char *name, const char *what, const char *why) {
    remove_unfinished();
    (void)fprintf(stderr, "%s: %s: %s%s%s\n", program, name, what, why[0] == '\0' ? "" : ": ", why);
    exit(status);
}

_Noreturn void leave_failed(const char *name, const char *what) {
    leave(FAILED, name, what, strerror(errno));
}

_Noreturn void leave_misused(const char *name, const char *what) {
    leave(MISUSED, name, what, "");
}

/* ---- words */

void tell_progress(const char *what, size_t done, size_t of) {
    static unsigned told = 101;
    unsigned percent = (unsigned)(100 * (uint64_t)done / of);
    if (quiet || of < LARGE || percent == told) {
        return;
    }
    if (isatty(STDERR_FILENO)) {
        (void)fprintf(stderr, "\r%s: %s %3u %%%s", program, what, percent, percent == 100 ? "\n" : "");
    } else if (percent % 25 == 0) {
        (void)fprintf(stderr, "%s: %s %3u %%\n", program, what, percent);
    }
    told = percent;
}

void flush_words(void) {
    if (fflush(stdout) != 0 || ferror(stdout)) {
        leave_failed("standard output", "cannot be written");
    }
}

int take_options(int argc, char **argv, const char *name, const char *help) {
    int at = 1;
    program = name;
    while (at < argc && argv[at][0] == '-' && argv[at][1] != '\0') {
        const char *word = argv[at++];
        if (strcmp(word, "--") == 0) {
            break;
        }
        if (strcmp(word, "--help") == 0) {
            (void)fputs(help, stdout);
            flush_words();
            exit(DONE);
        }
        if (strcmp(word, "-q") != 0 && strcmp(word, "--quiet") != 0) {
            leave_misused(word, "not an option; --help tells");
        }
        quiet = true;
    }
    return at;
}

static size_t step_from(size_t at, size_t len) {
    return len - at < STEP ? len - at : STEP;
}

/* ---- the input */

Input open_input(const char *name) {
    /* For an empty file there is nothing to map, and any pointer serves. */
    static const uint8_t none[1];
    Input in = {.name = name, .bytes = none};
    int fd = open(name, O_RDONLY | O_CLOEXEC | O_NONBLOCK);
    if (fd < 0 || fstat(fd, &in.found) != 0) {
        leave_failed(name, "cannot be opened");
    }
    if (!S_ISREG(in.found.st_mode)) {
        leave_misused(name, "not a regular file");
    }
    in.len = (size_t)in.found.st_size;
    if (in.len > 0) {
        void *map = mmap(NULL, in.len, PROT_READ, MAP_SHARED, fd, 0);
        if (map == MAP_FAILED) {
            leave_failed(name, "cannot be mapped");
        }
        in.bytes = map;
    }
    (void)close(fd);
    return in;
}

void see_that_unchanged(const Input *in) {
    struct stat now;
    if (stat(in->name, &now) != 0) {
        leave_failed(in->name, "cannot be looked at again");
    }
    if (now.st_dev != in->found.st_dev || now.st_ino != in->found.st_ino || now.st_size != in->found.st_size ||
        now.st_mtim.tv_sec != in->found.st_mtim.tv_sec || now.st_mtim.tv_nsec != in->found.st_mtim.tv_nsec) {
        leave(FAILED, in->name, "it was changed while it was read; nothing is written", "");
    }
}

void read_ahead(const Input *in) {
    const volatile uint8_t *bytes = in->bytes;
    size_t page = (size_t)sysconf(_SC_PAGESIZE);
    if (in->len < LARGE) {
        return;
    }
    for (size_t at = 0; at < in->len; at += step_from(at, in->len)) {
        tell_progress("reading", at, in->len);
        for (size_t i = 0; i < step_from(at, in->len); i += page) {
            (void)bytes[at + i];
        }
    }
    tell_progress("reading", in->len, in->len);
}

/* ---- the output */

void look_at_target(const char *name, const Input *in) {
    struct stat there;
    if (stat(name, &there) != 0) {
        if (errno != ENOENT) {
            leave_failed(name, "cannot be looked at");
        }
        return;
    }
    if (there.st_dev == in->found.st_dev && there.st_ino == in->found.st_ino) {
        leave_misused(name, "this is the input itself, which is never written to; name another file");
    }
    if (!S_ISREG(there.st_mode)) {
        leave_misused(name, "there is something of this name that is not a regular file");
    }
}

/* The length of the folder's name at the front of a file's, its last / included. */
static size_t folder_len(const char *name) {
    const char *slash = strrchr(name, '/');
    return slash == NULL ? 0 : (size_t)(slash - name) + 1;
}

static int make_temporary(const char *name) {
    size_t folder = folder_len(name);
    sigset_t all, before;
    mode_t mask = umask(0);
    (void)umask(mask);
    if (name[folder] == '\0') {
        leave_misused(name, "this names no file");
    }
    if (folder > sizeof temporary - 64) {
        leave_misused(name, "the name is too long");
    }
    memcpy(temporary, name, folder);
    (void)snprintf(temporary + folder, sizeof temporary - folder, ".%s-XXXXXX", program);
    (void)sigfillset(&all);
    (void)sigprocmask(SIG_BLOCK, &all, &before);
    int fd = mkstemp(temporary);
    unfinished = fd >= 0;
    (void)sigprocmask(SIG_SETMASK, &before, NULL);
    if (fd < 0) {
        leave_failed(name, "no file can be made beside it");
    }
    if (fchmod(fd, 0666 & ~mask) != 0) {
        leave_failed(temporary, "its mode cannot be set");
    }
    return fd;
}

Output make_output(const char *name, size_t len) {
    Output out = {.fd = make_temporary(name), .len = len};
    errno = posix_fallocate(out.fd, 0, (off_t)len);
    if (errno != 0) {
        leave_failed(name, "there is no room for it");
    }
    void *map = mmap(NULL, len, PROT_READ | PROT_WRITE, MAP_SHARED, out.fd, 0);
    if (map == MAP_FAILED) {
        leave_failed(temporary, "cannot be mapped");
    }
    out.bytes = map;
    return out;
}

static void sync_folder(const char *name) {
    char folder[NAME_LEN] = ".";
    size_t len = folder_len(name);
    if (len > 0) {
        memcpy(folder, name, len);
        folder[len] = '\0';
    }
    int fd = open(folder, O_RDONLY | O_DIRECTORY | O_CLOEXEC);
    if (fd >= 0) {
        (void)fsync(fd);
        (void)close(fd);
    }
}

void finish_output(const Output *out, const char *name, const Input *in, size_t len) {
    sigset_t all, before;
    for (size_t at = 0; at < len; at += step_from(at, len)) {
        tell_progress("writing", at, len);
        if (msync(out->bytes + at, step_from(at, len), MS_SYNC) != 0) {
            leave_failed(name, "cannot be written");
        }
    }
    tell_progress("writing", len, len);
    if (munmap(out->bytes, out->len) != 0 || ftruncate(out->fd, (off_t)len) != 0 || fsync(out->fd) != 0 ||
        close(out->fd) != 0) {
        leave_failed(name, "cannot be written");
    }
    look_at_target(name, in);
    (void)sigfillset(&all);
    (void)sigprocmask(SIG_BLOCK, &all, &before);
    if (rename(temporary, name) != 0) {
        leave_failed(name, "the finished file cannot take this name");
    }
    unfinished = 0;
    (void)sigprocmask(SIG_SETMASK, &before, NULL);
    sync_folder(name);
}
