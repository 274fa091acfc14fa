/* Steps through calls of libymx.so one instruction at a time, and unwinds from each instruction of the library's to the
 * function that has called it: it has to be found, and to have the registers there that it had before the call. */
#define _GNU_SOURCE
#include <link.h>
#include <signal.h>
#include <stdint.h>
#include <stdio.h>
#include <string.h>
#include <ucontext.h>
#include <unwind.h>
#include <ymx.h>

enum { KEPT = 6 };

/* rbx, rbp, r12 to r15, as the tables number them. */
static const int kept[KEPT] = {3, 6, 12, 13, 14, 15};
static uintptr_t begin, end;
static unsigned long steps, bad;
static _Unwind_Word wanted[KEPT];
static int is_known, is_found;

static void calls(void);

static _Unwind_Reason_Code frame(struct _Unwind_Context *context, void *unused) {
    (void)unused;
    if (_Unwind_GetRegionStart(context) != (_Unwind_Word)(uintptr_t)calls) return _URC_NO_REASON;
    for (int i = 0; i < KEPT; i++) {
        _Unwind_Word found = _Unwind_GetGR(context, kept[i]);
        if (!is_known) wanted[i] = found;
        if (found != wanted[i]) return _URC_END_OF_STACK;
    }
    is_found = is_known = 1;
    return _URC_END_OF_STACK;
}

static void step(int number, siginfo_t *info, void *at) {
    uintptr_t place = (uintptr_t)((ucontext_t *)at)->uc_mcontext.gregs[REG_RIP];
    (void)number;
    (void)info;
    if (place < begin || place >= end) return;
    steps++;
    is_found = 0;
    _Unwind_Backtrace(frame, NULL);
    if (!is_found && bad++ < 10) printf("no way back from libymx.so+0x%lx\n", (unsigned long)(place - begin));
}

static int range(struct dl_phdr_info *info, size_t size, void *unused) {
    (void)size;
    (void)unused;
    if (strstr(info->dlpi_name, "libymx.so") == NULL) return 0;
    for (int i = 0; i < info->dlpi_phnum; i++) {
        if (info->dlpi_phdr[i].p_type != PT_LOAD) continue;
        if (begin == 0) begin = info->dlpi_addr;
        end = info->dlpi_addr + info->dlpi_phdr[i].p_vaddr + info->dlpi_phdr[i].p_memsz;
    }
    return 1;
}

/* The registers of the caller are those of the first step of each call. */
#define STEP(CALL)                                                          \
    do {                                                                    \
        is_known = 0;                                                       \
        __asm__ volatile("pushfq; orq $0x100, (%%rsp); popfq" ::: "cc", "memory");  \
        CALL;                                                               \
        __asm__ volatile("pushfq; andq $~0x100, (%%rsp); popfq" ::: "cc", "memory"); \
    } while (0)

static unsigned char wire[70000], text[70000];

static __attribute__((noinline)) void calls(void) {
    ymx_session *client, *server;
    ymx_touched *touched;
    int64_t count, id = 0, round;
    uint32_t ids[8], passing;
    const void *lent;
    STEP(ymx_new(YMX_CLIENT, YMX_LEAST_WINDOW, 0, &client));
    STEP(ymx_new(YMX_SERVER, YMX_LEAST_WINDOW, 0, &server));
    STEP(ymx_touched_new(&touched));
    for (round = 0; round < 20; round++) {
        STEP(id = ymx_open(client));
        STEP(ymx_write(client, (uint32_t)id, text, 3000));
        STEP(count = ymx_emit(client, wire, sizeof wire));
        STEP(ymx_feed_touching(server, wire, (size_t)count, touched));
        STEP(ymx_accept(server));
        STEP(ymx_touched_ids(touched, ids, 8));
        STEP(ymx_touched_clear(touched));
        STEP(ymx_read(server, (uint32_t)id, text, 1000));
        STEP(ymx_unread(server, (uint32_t)id, &lent));
        STEP(ymx_consume(server, (uint32_t)id, 2000));
        STEP(count = ymx_write_through(client, (uint32_t)id, text, 100, wire, sizeof wire));
        STEP(ymx_feed_to_payload(server, wire, (size_t)count, touched));
        STEP(ymx_passing(server, &passing));
        STEP(ymx_pass(server, wire + 12, 100));
        STEP(ymx_ping(client));
        if (round % 3 == 0) STEP(ymx_finish(client, (uint32_t)id));
        if (round % 3 == 1) STEP(ymx_reset(client, (uint32_t)id));
        STEP(count = ymx_emit(client, wire, sizeof wire));
        STEP(ymx_feed(server, wire, (size_t)count));
        STEP(count = ymx_emit(server, wire, sizeof wire));
        STEP(ymx_feed(client, wire, (size_t)count));
        STEP(ymx_ponged(client, (uint32_t)round));
        STEP(ymx_has_ended(server, (uint32_t)id));
        STEP(ymx_is_at_end(server, (uint32_t)id));
        STEP(ymx_room(client, (uint32_t)id));
        STEP(ymx_unsent(client, (uint32_t)id));
        STEP(ymx_is_reset(server, (uint32_t)id));
        STEP(ymx_is_acknowledged(client, (uint32_t)id));
        if (round % 2 == 0)
            STEP(ymx_release(server, (uint32_t)id));
        else
            STEP(ymx_forget(server, (uint32_t)id));
        STEP(ymx_release(client, (uint32_t)id));
    }
    STEP(ymx_streams(client, ids, 8));
    STEP(ymx_go_away(server));
    STEP(count = ymx_emit(server, wire, sizeof wire));
    STEP(ymx_feed(client, wire, (size_t)count));
    STEP(ymx_feed(client, "\1\1\1\1\1\1\1\1\1\1\1\1", 12));
    STEP(ymx_status(client));
    STEP(ymx_feed_end(server));
    STEP(ymx_close(server));
    STEP(ymx_free(client));
    STEP(ymx_free(server));
    STEP(ymx_touched_free(touched));
}

int main(void) {
    struct sigaction action;
    memset(&action, 0, sizeof action);
    action.sa_sigaction = step;
    action.sa_flags = SA_SIGINFO;
    sigaction(SIGTRAP, &action, NULL);
    dl_iterate_phdr(range, NULL);
    _Unwind_Backtrace(frame, NULL); /* which may load what it needs */
    calls();
    printf("%lu instructions, %lu with no way back\n", steps, bad);
    return steps < 10000 || bad > 0;
}
