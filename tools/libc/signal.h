#ifndef _SIGNAL_H
#define _SIGNAL_H

#include <stddef.h>

#define SIGBUS 7
#define SIGSEGV 11
#define SA_SIGINFO 0x00000004
#define SA_ONSTACK 0x08000000

typedef struct {
    unsigned long words[16];
} sigset_t;

typedef struct {
    int si_signo;
    int si_errno;
    int si_code;
    int padding;
    void *si_addr; /* of a fault */
    char rest[104];
} siginfo_t;

struct sigaction {
    union {
        void (*sa_handler)(int);
        void (*sa_sigaction)(int, siginfo_t *, void *);
    };
    sigset_t sa_mask;
    int sa_flags;
    void (*sa_restorer)(void);
};

typedef struct {
    void *ss_sp;
    int ss_flags;
    size_t ss_size;
} stack_t;

int sigaction(int signal, const struct sigaction *restrict now, struct sigaction *restrict before);
int sigaltstack(const stack_t *restrict now, stack_t *restrict before);

#endif
