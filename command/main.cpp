/* The program `platewright`. */
#include <pthread.h>
#include <unistd.h>

#include <cerrno>
#include <cstring>
#include <iostream>

#include "fault.hpp"
#include "platewright.h"
#include "usage.hpp"

namespace {

/* The library's stack, and as much again for the command's own use. */
constexpr size_t STACK = 2 * PLATEWRIGHT_STACK;

struct Call {
    int words;
    char **word;
    int status;
};

/* What was printed may only now turn out not to fit on the disk. */
int run(const Call &call) {
    command::World world{stdin, std::cout, std::cerr, isatty(STDOUT_FILENO) != 0};
    int status = command::run(call.words, call.word, world);
    errno = 0;
    if (std::cout.flush()) return status;
    std::cerr << "platewright: standard output: could not write" << (errno ? ": " : "")
              << (errno ? std::strerror(errno) : "") << "\n";
    return command::CANNOT_READ_OR_WRITE;
}

void *run_on_thread(void *lent) {
    auto call = static_cast<Call *>(lent);
    try {
        call->status = run(*call);
    } catch (const std::exception &failure) {
        std::cerr << "platewright: " << failure.what() << "\n";
    }
    return nullptr;
}

}

/* A thread has the stack that the library needs, whatever the shell's limit is. */
int main(int words, char **word) {
    std::ios::sync_with_stdio(false);
    Call call{words, word, command::CANNOT_READ_OR_WRITE};
    pthread_t thread;
    pthread_attr_t attributes;
    pthread_attr_init(&attributes);
    pthread_attr_setstacksize(&attributes, STACK);
    if (pthread_create(&thread, &attributes, run_on_thread, &call) == 0) pthread_join(thread, nullptr);
    else std::cerr << "platewright: no room for a stack\n";
    return call.status;
}
