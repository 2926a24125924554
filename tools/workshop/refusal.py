"""A library that refuses one allocation, or one thread, of a program that it is loaded before, and tests that run with it."""
import os
import subprocess

MOST = 100_000

# Refuses what is asked for under the number REFUSED, whichever thread asks for it, and tells so on the file TOLD. The first allocation is the main thread's.
HEAD = r"""
#define _GNU_SOURCE
#include <dlfcn.h>
#include <errno.h>
#include <pthread.h>
#include <stdlib.h>
#include <unistd.h>
static long left;
static int has_begun;
static int is_refused(void) {
    if (!has_begun) {
        left = atol(getenv("REFUSED"));
        has_begun = 1;
    }
    if (__atomic_load_n(&left, __ATOMIC_SEQ_CST) <= 0 || __atomic_sub_fetch(&left, 1, __ATOMIC_SEQ_CST) != 0) return 0;
    if (write(atoi(getenv("TOLD")), "!", 1) != 1) abort();
    return 1;
}
"""
ALLOCATIONS = r"""
void *malloc(size_t size) {
    static void *(*next)(size_t);
    if (!next) next = dlsym(RTLD_NEXT, "malloc");
    return is_refused() ? NULL : next(size);
}
void *realloc(void *old, size_t size) {
    static void *(*next)(void *, size_t);
    if (!next) next = dlsym(RTLD_NEXT, "realloc");
    return is_refused() ? NULL : next(old, size);
}
"""
THREADS = r"""
int pthread_create(pthread_t *thread, const pthread_attr_t *with, void *(*run)(void *), void *given) {
    static int (*next)(pthread_t *, const pthread_attr_t *, void *(*)(void *), void *);
    if (!next) next = dlsym(RTLD_NEXT, "pthread_create");
    return is_refused() ? EAGAIN : next(thread, with, run, given);
}
"""


def built_shim(folder, what=ALLOCATIONS):
    source, shim = f"{folder}/shim.c", f"{folder}/shim.so"
    with open(source, "w", encoding="utf-8") as it:
        it.write(HEAD + what)
    subprocess.run(["cc", "-O1", "-shared", "-fPIC", "-o", shim, source, "-ldl"], check=True)
    return shim


def run(program, test, shim, number):
    """Runs one test with that allocation refused. Gives whether one was, the exit status and what was printed."""
    told, tell = os.pipe()
    env = {"LD_PRELOAD": shim, "REFUSED": str(number), "TOLD": str(tell)}
    done = subprocess.run(
        [program, test], env=env, pass_fds=[tell], timeout=60,
        stdout=subprocess.PIPE, stderr=subprocess.STDOUT, check=False,
    )
    os.close(tell)
    with os.fdopen(told, "rb") as it:
        was_refused = it.read() != b""
    return was_refused, done.returncode, done.stdout.decode(errors="replace")


def try_test(program, test, shim):
    """Gives how many of the runs failed."""
    failed = 0
    for number in range(1, MOST):
        was_refused, status, text = run(program, test, shim, number)
        if status != 0:
            failed += 1
            print(f"{test}: number {number}: status {status}\n{text}")
        if not was_refused:
            print(f"{test}: {number - 1} refused in turn, {failed} runs failed")
            return failed
    return failed + 1


def try_tests(program, shim):
    """Runs the tests of a program whose names begin with `a_refused_`. Gives how many there are, and how many runs failed."""
    listed = subprocess.run([program, "--list"], stdout=subprocess.PIPE, check=True)
    names = [word.rstrip(":") for word in listed.stdout.decode().split()]
    names = [name for name in names if name.rpartition("::")[2].startswith("a_refused_")]
    return len(names), sum(try_test(program, name, shim) for name in names)
