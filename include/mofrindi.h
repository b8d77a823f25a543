/* Mofrindi: what the box firmware asks of the service information of a cable plant.
 *
 * One question by bytes and numbers alone: does this section read right? A section is a carrier (CDS) or modulation (MMS)
 * table, table number 0xC2, a network text table (NTT) of source names, 0xC3, or a virtual channel (VCM) or defined channels
 * (DCM) map, 0xC4, of ANSI/SCTE 65: its bytes from the table number to the CRC, whole. Names may be in any language.
 *
 * The answer is proved for every sequence of bytes there is. The function keeps no state, allocates nothing, changes none of
 * the bytes, always returns, and may be called from several threads at once.
 *
 * Link with libfirmware.a (x86-64), which `rt lib`, run in crates/firmware, writes to crates/firmware/out/.
 */
#ifndef MOFRINDI_H
#define MOFRINDI_H

#include <stddef.h>
#include <stdint.h>

#ifdef __cplusplus
extern "C" {
#endif

/* Answers 0 if the section reads right, else the number of a refusal, 3 to 11: the first that holds, in this order.
 *
 *    3  fewer than 8 bytes, or length is not 3 + L, or L (the section length field) is above 1,021
 *    4  the table number is not 0xC2, 0xC3 or 0xC4
 *    5  the CRC is wrong
 *    6  the protocol version is not 0
 *    7  the medium is not 0, or the subtype is none of the tables' (8 where the section ends before that byte)
 *  then front to back, each part taken whole, 8 before 9 before 10:
 *    8  a field, record or descriptor runs into the CRC
 *    9  a bit that must be zero is 1
 *   10  a value out of its limits: first index 0; carriers 0; an index above 255; channel count 0; a range past channel 4095;
 *       an unassigned modulation value; channel type above 1; video standard above 4; a name whose text breaks section 7.1
 *       of ANSI/SCTE 65
 *  and last:
 *   11  the revision descriptor is absent, there twice, shorter than 3 bytes, or its number is above its last number
 *
 * section  the first byte; at least length bytes must be readable there. It may be null only if length is 0.
 * length   how many bytes there are; any number is allowed, and more than 1,024 are refused.
 */
uint32_t mofrindi_check_section(const uint8_t *section, size_t length);

#ifdef __cplusplus
}
#endif

#endif
