#include "beside_plane.h"
#include "cases.h"

struct plane plane(enum slot slot)
{
    const uint64_t *n = words(4);
    struct plane p = {n[0], n[1], n[2], n[3], NULL, 0, NULL};
    p.samples = samples(&p.len);
    p.lent = lend_list(slot, p.samples, p.len * sample_bytes, sample_bytes);
    return p;
}
