/* The tables and functions that RFC 6386 prints, as functions that can be linked. */
#include <string.h>

#include "dixie.h"
#include "dequant_data.h"
#include "factors.h"

#define QINDEX_RANGE 128
#include "section14_tables.h"

#include "quantiser.h"

int step_of_14(int ac, int index)
{
    return ac ? ac_qlookup[index] : dc_qlookup[index];
}

int step_of_20(int ac, int index)
{
    return ac ? ac_q_lookup[index] : dc_q_lookup[index];
}

void printed_factors(int base, const int *deltas, int *factors)
{
    static const int planes[] = {TOKEN_BLOCK_Y1, TOKEN_BLOCK_Y2, TOKEN_BLOCK_UV};
    struct dequant_factors made[MAX_MB_SEGMENTS];
    struct vp8_segment_hdr none;
    struct vp8_quant_hdr header;
    int i;
    memset(made, 0, sizeof made);
    memset(&none, 0, sizeof none);
    memset(&header, 0, sizeof header);
    header.q_index = base;
    header.delta_update = 1;
    header.y1_dc_delta_q = deltas[0];
    header.y2_dc_delta_q = deltas[1];
    header.y2_ac_delta_q = deltas[2];
    header.uv_dc_delta_q = deltas[3];
    header.uv_ac_delta_q = deltas[4];
    dequant_init(made, &none, &header);
    for (i = 0; i < FACTORS; i++)
        factors[i] = made[0].factor[planes[i / 2]][i % 2];
}
