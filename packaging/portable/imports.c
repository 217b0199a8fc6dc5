/* ---------- What the program uses beside the library's runtime, written by hand ---------- */

typedef double real;

DEFINE_LOAD(f64_load, real, real, real)
DEFINE_STORE(f64_store, real, real)

static inline real f64_reinterpret_i64(u64 bits)
{
    real value;

    memcpy(&value, &bits, sizeof value);
    return value;
}

/* What the program imports. The adapter has it, below. */
static void import_rattle_alloc(module *m, u64 answer, u64 bytes, u64 align);
static void import_rattle_realloc(module *m, u64 answer, u64 at, u64 old_bytes, u64 bytes, u64 align);
static void import_rattle_dealloc(module *m, u64 at);
static u64 import_rattle_arg(module *m, u64 index, u64 at, u64 bytes);
static u32 import_rattle_errno(module *m);
static void import_rattle_set_errno(module *m, u32 number);
static u32 import_open(module *m, u64 path, u32 flags, u64 more);
static u32 import_close(module *m, u32 file);
static u32 import_isatty(module *m, u32 file);
static u64 import_read(module *m, u32 file, u64 at, u64 bytes);
static u64 import_write(module *m, u32 file, u64 at, u64 bytes);
static u32 import___xpg_strerror_r(module *m, u32 number, u64 at, u64 bytes);
static u64 import___sysv_signal(module *m, u32 number, u64 handler);
static void import___multi3(module *m, u64 answer, u64 low, u64 high, u64 by_low, u64 by_high);
static void import___ashlti3(module *m, u64 answer, u64 low, u64 high, u32 by);
static void import___lshrti3(module *m, u64 answer, u64 low, u64 high, u32 by);
