/*
 * The inverse transforms as RFC 6386 prints them: in sections 14.3 (with the one
 * for a block whose first number alone is not 0) and 14.4, and in its reference
 * decoder, section 20.8.
 */
#ifndef PRINTED_H
#define PRINTED_H

void vp8_short_inv_walsh4x4_c(short *input, short *output);
void vp8_short_inv_walsh4x4_1_c(short *input, short *output);
void short_idct4x4llm_c(short *input, short *output, int pitch);

void vp8_dixie_walsh(const short *input, short *output);
void vp8_dixie_idct_add(unsigned char *recon, const unsigned char *predict, int stride, const short *coeffs);

#endif
