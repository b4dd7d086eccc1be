/* The sizes and offsets of kalzurenk.h are those that the library was proved with. */
#include <kalzurenk.h>

#define AT(type, field, place) _Static_assert(offsetof(type, field) == (place), #type "." #field)
#define SIZE(type, size) _Static_assert(sizeof(type) == (size), #type)

SIZE(kz_region, 32);
AT(kz_region, size, 0);
AT(kz_region, address, 8);
AT(kz_region, bytes, 16);
AT(kz_region, length, 24);
SIZE(kz_module, 48);
AT(kz_module, size, 0);
AT(kz_module, start, 8);
AT(kz_module, end, 16);
AT(kz_module, tables, 24);
AT(kz_module, more, 32);
AT(kz_module, format, 40);
SIZE(kz_registers, 144);
AT(kz_registers, size, 0);
AT(kz_registers, general, 8);
AT(kz_registers, ip, 136);
SIZE(kz_frame, 72);
AT(kz_frame, ra, 0);
AT(kz_frame, sp, 8);
AT(kz_frame, rbx, 16);
AT(kz_frame, rbp, 24);
AT(kz_frame, r12, 32);
AT(kz_frame, r13, 40);
AT(kz_frame, r14, 48);
AT(kz_frame, r15, 56);
AT(kz_frame, interrupted, 64);
SIZE(kz_end, 48);
AT(kz_end, size, 0);
AT(kz_end, frame_size, 8);
AT(kz_end, count, 16);
AT(kz_end, address, 24);
AT(kz_end, detail, 32);
AT(kz_end, reason, 40);
AT(kz_end, error, 44);
SIZE(kz_place, 24);
AT(kz_place, size, 0);
AT(kz_place, index, 8);
AT(kz_place, address, 16);
SIZE(kz_session, 8);
SIZE(kz_throw, 24);
AT(kz_throw, size, 0);
AT(kz_throw, exception, 8);
AT(kz_throw, limit, 16);
SIZE(kz_resume, 24);
AT(kz_resume, size, 0);
AT(kz_resume, pad, 8);
AT(kz_resume, ret, 16);
SIZE(kz_cleanup, 16);
AT(kz_cleanup, pad, 0);
AT(kz_cleanup, sp, 8);
SIZE(kz_delivery, 184);
AT(kz_delivery, size, 0);
AT(kz_delivery, cleanup_size, 8);
AT(kz_delivery, visited, 16);
AT(kz_delivery, cleanups, 24);
AT(kz_delivery, detail, 32);
AT(kz_delivery, outcome, 40);
AT(kz_delivery, error, 44);
AT(kz_delivery, general, 48);
AT(kz_delivery, ip, 176);
