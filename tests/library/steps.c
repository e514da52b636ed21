// An append as the machine does it: the call is run instruction by instruction, and after each that has changed the capture what is
// found is looked at, as after a power cut there. Until the number's last byte is stored it has to be every block finished before, and
// from then on the new one too; nothing may be stored behind it. Ends with 0 if it is so, 1 if not, and 3 where the system lets no program be
// run by steps.
#define _GNU_SOURCE
#include <signal.h>
#include <stdio.h>
#include <stdlib.h>
#include <string.h>
#include <sys/mman.h>
#include <sys/ptrace.h>
#include <sys/wait.h>
#include <unistd.h>

#include "trivsome.h"

enum { BLOCK = 512, LAST = 3 };

static uint8_t payload[TRIVSOME_PAYLOAD_MOST];

// The blocks that are finished; a number that no capture has beside a refusal.
static unsigned finished(const uint8_t *capture)
{
    uint64_t outcome = trivsome_capture_finished(capture, TRIVSOME_CAPTURE_SIZE);
    return trivsome_answer(outcome) == 0 ? trivsome_figure(outcome) : TRIVSOME_CAPTURE_BLOCKS + 1;
}

// Whether the process has one instruction more; -1 where it cannot be run by steps.
static int stepped(pid_t process)
{
    int status;
    if (ptrace(PTRACE_SINGLESTEP, process, NULL, NULL) < 0 || waitpid(process, &status, 0) < 0)
        return -1;
    return WIFSTOPPED(status) ? 1 : 0;
}

// An append behind so many blocks, over what a cut has left: 0, 1 or 3.
static int try_append(uint8_t *capture, unsigned blocks, size_t length)
{
    uint8_t before[BLOCK], *block = capture + BLOCK * blocks;
    int status, more;
    bool done = false;
    memset(capture, 0, TRIVSOME_CAPTURE_SIZE);
    for (unsigned i = 0; i < blocks; i++)
        trivsome_capture_append(capture, TRIVSOME_CAPTURE_SIZE, payload, sizeof payload);
    memset(block + LAST + 1, 0xA5, BLOCK - LAST - 1);
    memcpy(before, block, BLOCK);
    pid_t process = fork();
    if (process < 0)
        return 3;
    if (process == 0) {
        if (ptrace(PTRACE_TRACEME, 0, NULL, NULL) < 0)
            _exit(3);
        raise(SIGSTOP);
        trivsome_capture_append(capture, TRIVSOME_CAPTURE_SIZE, payload, length);
        _exit(0);
    }
    if (waitpid(process, &status, 0) < 0 || !WIFSTOPPED(status))
        return 3;
    while ((more = stepped(process)) > 0) {
        if (memcmp(before, block, BLOCK) == 0)
            continue;
        if (done || finished(capture) != blocks + (block[LAST] != 0)) {
            printf("steps: behind %u blocks, %zu bytes: %u are found, or something is stored behind the number\n", blocks, length, finished(capture));
            kill(process, SIGKILL);
            return 1;
        }
        done = block[LAST] != 0;
        memcpy(before, block, BLOCK);
    }
    if (more < 0) {
        kill(process, SIGKILL);
        return 3;
    }
    return done ? 0 : 1;
}

int main(void)
{
    static const size_t lengths[] = {1, 300, TRIVSOME_PAYLOAD_MOST};
    uint8_t *capture = mmap(NULL, TRIVSOME_CAPTURE_SIZE, PROT_READ | PROT_WRITE, MAP_SHARED | MAP_ANONYMOUS, -1, 0);
    if (capture == MAP_FAILED)
        return 3;
    for (size_t i = 0; i < sizeof payload; i++)
        payload[i] = (uint8_t)(7 * i + 3);
    for (size_t i = 0; i < sizeof lengths / sizeof *lengths; i++) {
        for (unsigned blocks = 0; blocks <= 3; blocks += 3) {
            int result = try_append(capture, blocks, lengths[i]);
            if (result != 0)
                return result;
        }
    }
    return 0;
}
