/* The module's exports around those of lx_live: 32-bit addresses and sizes, which JavaScript has as plain numbers, and a
 * guard. A call that traps leaves the memory half written, so each call after it traps too, as in the modules that the kit
 * itself links. */
typedef unsigned char u8;
typedef unsigned int u32;
typedef unsigned long long u64;

_Bool __rattle_enter(void);
void __rattle_leave(void);

u8 lx_live_open_inner(void *slot, _Bool tells_view, u64 delay);
u8 lx_live_line_inner(void *slot, const u8 *line, u64 line_length, u8 *output, u64 output_length, u64 *length);
u8 lx_live_reply_inner(void *slot, u64 from, u8 *output, u64 output_length, u64 *length);
void lx_live_close_inner(void *slot);

#define EXPORT(name) __attribute__((export_name(#name)))
#define AT(address) ((void *)(u64)(address))
#define GUARDED(call) \
    if (__rattle_enter()) \
        __builtin_trap(); \
    call; \
    __rattle_leave()

/* The delay is a whole number of milliseconds from 0 to 2^53. */
EXPORT(lx_live_open) u32 lx_live_open(u32 slot, u32 tells_view, double delay) {
    GUARDED(u32 told = lx_live_open_inner(AT(slot), tells_view != 0, (u64)delay));
    return told;
}

/* The length is written as 8 bytes, the lowest first. */
EXPORT(lx_live_line) u32 lx_live_line(u32 slot, u32 line, u32 line_length, u32 output, u32 output_length, u32 length) {
    GUARDED(u32 told =
                lx_live_line_inner(AT(slot), AT(line), line_length, AT(output), output_length, AT(length)));
    return told;
}

EXPORT(lx_live_reply) u32 lx_live_reply(u32 slot, u32 from, u32 output, u32 output_length, u32 length) {
    GUARDED(u32 told = lx_live_reply_inner(AT(slot), from, AT(output), output_length, AT(length)));
    return told;
}

EXPORT(lx_live_close) void lx_live_close(u32 slot) {
    GUARDED(lx_live_close_inner(AT(slot)));
}
