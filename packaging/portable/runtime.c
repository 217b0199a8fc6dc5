/* ---------- The runtime, written by hand ---------- */

#if defined(__GNUC__)
#define NOINLINE __attribute__((noinline))
#define FRAME() ((uintptr_t)__builtin_frame_address(0))
#define STACK_ROOM(bytes) __builtin_alloca(bytes)
#define IS_RARE(condition) __builtin_expect(!!(condition), 0)
#define STOP() __builtin_trap()
#elif defined(_MSC_VER)
#include <intrin.h>
#include <malloc.h>
#define NOINLINE __declspec(noinline)
#define FRAME() ((uintptr_t)_AddressOfReturnAddress())
#define STACK_ROOM(bytes) _alloca(bytes)
#define IS_RARE(condition) (condition)
#define STOP() __fastfail(5)
#else
#error "this file needs a compiler that knows __builtin_frame_address and __builtin_alloca, or MSVC"
#endif

/* The generated part uses these names. */
typedef uint8_t u8;
typedef int8_t s8;
typedef uint16_t u16;
typedef int16_t s16;
typedef uint32_t u32;
typedef int32_t s32;
typedef uint64_t u64;
typedef int64_t s64;

/*
 * The memory of a call, and how far its stacks reached. The stack of the module goes down from the address STACK_BYTES. Then come the
 * constants of the module, and from HEAP_BASE on what the call is given. The block of the call begins where the stack that it needs
 * ends, so the module has no addresses below `first`.
 */
typedef struct {
    uintptr_t origin;  /* where the address 0 of the module would be */
    u64 first;         /* the first address of the module that is in the block */
    u64 end;           /* the address after the block */
    u64 pointer;       /* the stack pointer of the module */
    u64 lowest;        /* the lowest stack pointer of the call */
    u32 is_busy;       /* a mark that the module sets while a call is made, and 0 before it */
    uintptr_t deepest; /* the lowest address of a frame in the C stack */
} module;

/* Where an address of the module is. The sum is one of whole numbers, as no pointer may leave its block. */
#define PLACE(m, at) ((u8 *)((m)->origin + (uintptr_t)(at)))

/* memset, in a form that a compiler can't leave out. */
static void *(*const volatile set_bytes)(void *, int, size_t) = memset;

static void clear(void *memory, size_t bytes)
{
    if (bytes)
        set_bytes(memory, 0, bytes);
}

/* A function of the module that calls no other may use this many bytes below the stack pointer. */
#define RED_ZONE_BYTES 128u

/* Stops the program. Only an error of a compiler can lead here. */
static u32 stopped(void)
{
    STOP();
    return 0;
}

/* Moves the stack pointer of the module. If the stack overflows, the pointer gets too low, or beyond 0 and so too high. */
#define SET_POINTER(to) \
    do { \
        m->pointer = (to); \
        if (IS_RARE(m->pointer < m->first + RED_ZONE_BYTES || m->pointer > STACK_BYTES)) \
            stopped(); \
        if (m->pointer < m->lowest) \
            m->lowest = m->pointer; \
        if (FRAME() < m->deepest) \
            m->deepest = FRAME(); \
    } while (0)

#ifdef SHAMIR_CHECKED
#define CHECK_ADDRESS(at, bytes) \
    if (IS_RARE((u64)(at) < m->first || (u64)(at) + (u64)(bytes) > m->end)) \
        stopped();
#else
#define CHECK_ADDRESS(at, bytes)
#endif

/* The memory of a module is little-endian on every processor. */
#if defined(_MSC_VER) || (defined(__BYTE_ORDER__) && __BYTE_ORDER__ == __ORDER_LITTLE_ENDIAN__)
#define LITTLE_ENDIAN_VALUE(type, value) ((void)0)
#else
#define LITTLE_ENDIAN_VALUE(type, value) \
    do { \
        u8 *first = (u8 *)&(value), *last = first + sizeof(type) - 1; \
        for (; first < last; first++, last--) { \
            u8 kept = *first; \
            *first = *last; \
            *last = kept; \
        } \
    } while (0)
#endif

#define DEFINE_LOAD(name, type, extended, result) \
    static inline result name(const module *m, u64 at) \
    { \
        type value; \
        CHECK_ADDRESS(at, sizeof value) \
        memcpy(&value, PLACE(m, at), sizeof value); \
        LITTLE_ENDIAN_VALUE(type, value); \
        return (result)(extended)value; \
    }

#define DEFINE_STORE(name, type, given) \
    static inline void name(const module *m, u64 at, given value) \
    { \
        type stored = (type)value; \
        CHECK_ADDRESS(at, sizeof stored) \
        LITTLE_ENDIAN_VALUE(type, stored); \
        memcpy(PLACE(m, at), &stored, sizeof stored); \
    }

#if defined(__GNUC__)
#pragma GCC diagnostic push
/* No module uses all of these. */
#pragma GCC diagnostic ignored "-Wunused-function"
#endif

DEFINE_LOAD(i32_load, u32, u32, u32)
DEFINE_LOAD(i64_load, u64, u64, u64)
DEFINE_LOAD(i32_load8_s, s8, s32, u32)
DEFINE_LOAD(i64_load8_s, s8, s64, u64)
DEFINE_LOAD(i32_load8_u, u8, u32, u32)
DEFINE_LOAD(i64_load8_u, u8, u64, u64)
DEFINE_LOAD(i32_load16_s, s16, s32, u32)
DEFINE_LOAD(i64_load16_s, s16, s64, u64)
DEFINE_LOAD(i32_load16_u, u16, u32, u32)
DEFINE_LOAD(i64_load16_u, u16, u64, u64)
DEFINE_LOAD(i64_load32_s, s32, s64, u64)
DEFINE_LOAD(i64_load32_u, u32, u64, u64)
DEFINE_STORE(i32_store, u32, u32)
DEFINE_STORE(i64_store, u64, u64)
DEFINE_STORE(i32_store8, u8, u32)
DEFINE_STORE(i32_store16, u16, u32)
DEFINE_STORE(i64_store8, u8, u64)
DEFINE_STORE(i64_store16, u16, u64)
DEFINE_STORE(i64_store32, u32, u64)

static inline void memory_fill(const module *m, u32 at, u32 value, u32 bytes)
{
    if (!bytes)
        return;
    CHECK_ADDRESS(at, bytes)
    memset(PLACE(m, at), (int)(value & 255), bytes);
}

static inline void memory_copy(const module *m, u32 to, u32 from, u32 bytes)
{
    if (!bytes)
        return;
    CHECK_ADDRESS(to, bytes)
    CHECK_ADDRESS(from, bytes)
    memmove(PLACE(m, to), PLACE(m, from), bytes);
}

static inline u32 leading_zeros(u64 value, u32 bits)
{
    u32 count = 0;

    for (; count < bits && !(value >> (bits - 1 - count) & 1); count++)
        ;
    return count;
}

static inline u32 trailing_zeros(u64 value, u32 bits)
{
    u32 count = 0;

    for (; count < bits && !(value >> count & 1); count++)
        ;
    return count;
}

static inline u32 set_bits(u64 value)
{
    u32 count = 0;

    for (; value; value &= value - 1)
        count++;
    return count;
}

#if defined(__GNUC__)
#pragma GCC diagnostic pop
#define I32_CLZ(value) ((value) ? (u32)__builtin_clz(value) : 32u)
#define I64_CLZ(value) ((value) ? (u64)__builtin_clzll(value) : 64u)
#define I32_CTZ(value) ((value) ? (u32)__builtin_ctz(value) : 32u)
#define I64_CTZ(value) ((value) ? (u64)__builtin_ctzll(value) : 64u)
#else
#define I32_CLZ(value) leading_zeros(value, 32)
#define I64_CLZ(value) leading_zeros(value, 64)
#define I32_CTZ(value) trailing_zeros(value, 32)
#define I64_CTZ(value) trailing_zeros(value, 64)
#endif
#define I32_POPCNT(value) set_bits(value)
#define I64_POPCNT(value) set_bits(value)
#define UNREACHABLE stopped()
#define DIV_U(value, by) (IS_RARE((by) == 0) ? stopped() : (value) / (by))
#define REM_U(value, by) (IS_RARE((by) == 0) ? stopped() : (value) % (by))
#define I32_ROTL(value, by) ((value) << ((by) & 31) | (value) >> ((32 - (by)) & 31))
#define I64_ROTL(value, by) ((value) << ((by) & 63) | (value) >> ((64 - (by)) & 63))
#define I32_ROTR(value, by) ((value) >> ((by) & 31) | (value) << ((32 - (by)) & 31))
#define I64_ROTR(value, by) ((value) >> ((by) & 63) | (value) << ((64 - (by)) & 63))

