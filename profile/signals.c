/*
 * Signals that end a command: before it ends, what it has beside its targets is removed.
 */
#define _XOPEN_SOURCE 700
#include <signal.h>

#include "profile.h"

static const int signals[] = {SIGHUP, SIGINT, SIGPIPE, SIGTERM};

enum { SIGNALS = sizeof signals / sizeof signals[0] };

/* Removes what is left, and ends by the signal. */
static void end_by(int number) {
    remove_temporaries();
    remove_lock();
    raise(number); /* it is as at first again, so that this ends the program */
}

/* Has the signals that are not ignored caught. */
void catch_signals(void) {
    for (int k = 0; k < SIGNALS; k++) {
        struct sigaction action, now;
        if (sigaction(signals[k], NULL, &now) == 0 && now.sa_handler == SIG_DFL) {
            action.sa_handler = end_by;
            action.sa_flags = (int)SA_RESETHAND;
            sigfillset(&action.sa_mask);
            sigaction(signals[k], &action, NULL);
        }
    }
}

static sigset_t before; /* what was held back when they were not held */

/* Holds the signals back, so that what is done until they are let through is not cut in two. */
void hold_signals(void) {
    sigset_t set;
    sigemptyset(&set);
    for (int k = 0; k < SIGNALS; k++) {
        sigaddset(&set, signals[k]);
    }
    sigprocmask(SIG_BLOCK, &set, &before);
}

/* Lets them through. */
void release_signals(void) {
    sigprocmask(SIG_SETMASK, &before, NULL);
}
