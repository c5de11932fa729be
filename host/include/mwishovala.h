/* The proved fabric library, libmwishovala.a, for hosts in C or with a C
 * interface. Its code is independent of its place, so a shared object can be
 * made of it.
 *
 * Each call reads the file, writes at most the area lent and nothing else, takes
 * no memory but its stack, and returns place * 256 + number. On success the
 * number is 0 and the place is the count of little-endian 32-bit words written
 * to the area; bytes past those stay. Else the number is that of the question
 * that got a no, 1 to 13, the place is the number of the record's first word in
 * the file or 0, and every byte of the area stays.
 *
 * Stack: give a thread that makes calls FABRIC_STACK_BYTES at least, of either
 * version. The deepest fabric that is accepted was measured to take less, and the
 * rest is margin. Where a call runs out of stack the process is killed.
 * Threads: the library has no state. Any number of calls may be made at once,
 * also on the same file, but each on an area of its own.
 * Length 0: the pointer is then not used, and may be NULL. With any other length
 * it points to that many bytes. A file of length 0 gets number 1; a list without
 * finds succeeds on an area of length 0.
 * Overlap: file and area must lie apart. What a call does where they share a
 * byte is not said anywhere, and nothing of the proof holds for it.
 * Alignment: none is needed.
 *
 * Equal priorities: of the entries at an in-port that match, any of the highest
 * priority may take a packet, chosen afresh at each hop. 'Isolated' holds under
 * every choice. 'Reached' and each find show one choice, so a packet run of the
 * same header may stop with fate 4, which says that there is a choice to make.
 *
 * Versions: bits 26..16 of a file's first word are its version, 1 or 2. Each call
 * is there for both: fabric_verdict, fabric_list and fabric_run for version 1,
 * fabric_verdict_v2, fabric_list_v2 and fabric_run_v2 for version 2. A file of the
 * other version gets number 2, or number 1 if it is longer than this version's
 * files are. What differs is how many words a header has, 4 or 8, and with it a
 * care, a value, an edge (9 or 17), an entry (18 or 34), an answer (24 or 28); and
 * the limits: 512 entries and 40200 bytes, or 400 entries and 59784 bytes.
 *
 * Table miss: bit 27 of a file's first word chooses OpenFlow 1.3 over 1.0. A packet
 * that no entry takes is lost under 1.0 and dropped under 1.3. Verdicts are the
 * same under both.
 *
 * Addresses: before it rewrites, an entry may copy nw_src over nw_dst or swap the
 * two. Bits 31..28 of its second word say which, 1 or 2; with 0 it does neither,
 * and a value above 2 gets number 3.
 *
 * The care and value words are the asked header set; for a run, the packet's
 * header, with every care bit set. A header has four words: nw_src; nw_dst;
 * tp_src (high 16 bits) and tp_dst; dl_vlan (high 16), nw_tos (8), nw_proto. In
 * version 2 four more follow: dl_src, its high 32 bits; dl_src, its low 16 (high
 * 16 bits), and dl_dst, its high 16; dl_dst, its low 32; dl_type (high 16),
 * dl_vlan_pcp (8), and 8 bits that are zero. Those 8 have to be zero in every care
 * and rewrite mask, or number 5 comes of the file and 10 of the asked set; a run's
 * care is 0xffffff00 in that word and 0xffffffff in the others.
 */
#ifndef MWISHOVALA_H
#define MWISHOVALA_H

#include <stddef.h>
#include <stdint.h>

#ifdef __cplusplus
extern "C" {
#endif

/* The bytes that a verdict or a run needs: 24 words, or 28 in version 2. */
#define FABRIC_ANSWER_BYTES 96
#define FABRIC_ANSWER_BYTES_V2 112

/* The least stack of a thread that makes calls. */
#define FABRIC_STACK_BYTES (576 * 1024)

/* Which library this is: "mwishovala 0.5.0, commit 0123456789ab", with -dirty
 * behind a commit that isn't all, or unknown in its place. */
extern const char mwishovala_version[];

/* A list's target in the place of an edge port: what is lost. */
#define FABRIC_LOST 0

/* The number of the question that got a no, or 0, and the place. */
#define FABRIC_NUMBER(code) ((unsigned)((code) % 256))
#define FABRIC_PLACE(code) ((uint64_t)(code) / 256)

/* Is the target isolated, under every choice? 24 words: 0 isolated or 1 reached;
 * units made; edge port; hops; header (4); entries in travelling order (16). */
uint64_t fabric_verdict(const uint8_t *file, size_t file_len,
                        uint8_t *area, size_t area_len,
                        uint32_t target, uint32_t limit, uint32_t budget,
                        uint32_t care0, uint32_t care1, uint32_t care2, uint32_t care3,
                        uint32_t value0, uint32_t value1, uint32_t value2, uint32_t value3);

/* Every find in order: a word of kind 6 (bits 27..12 hops, 11..0 edge port); for
 * each entry in travelling order a word of kind 7 with its number below; care
 * (4); value (4). Kinds are in bits 31..28. A header may stand in several finds,
 * by different ways; each way of it stands in just one.
 * Target FABRIC_LOST, of a file of OpenFlow 1.0: the finds hold the packets that
 * are lost under some choice, with a header then in the asked set. They come,
 * after no hop or more and fewer than the limit, to an in-port where no entry
 * takes them. A find without a hop has no word of kind 7. Under OpenFlow 1.3, and
 * for a verdict, this target gets number 8. */
uint64_t fabric_list(const uint8_t *file, size_t file_len,
                     uint8_t *area, size_t area_len,
                     uint32_t target, uint32_t limit, uint32_t budget,
                     uint32_t care0, uint32_t care1, uint32_t care2, uint32_t care3,
                     uint32_t value0, uint32_t value1, uint32_t value2, uint32_t value3);

/* One packet's way. 24 words: fate (0 left, 1 dropped, 2 lost, 3 still
 * travelling, 4 tied); 0; port; hops; header then (4); entries taken (16). Tied:
 * two or more entries of the highest priority at the port match, also if they do
 * the same; that hop isn't made. No entry takes it at the port: 2 or, under
 * OpenFlow 1.3, 1; no hop is made for it, while an entry that drops makes one, and
 * is the last. The budget is unused. */
uint64_t fabric_run(const uint8_t *file, size_t file_len,
                    uint8_t *area, size_t area_len,
                    uint32_t start, uint32_t limit, uint32_t budget,
                    uint32_t care0, uint32_t care1, uint32_t care2, uint32_t care3,
                    uint32_t value0, uint32_t value1, uint32_t value2, uint32_t value3);

/* The same for files of version 2. A verdict and a run fill 28 words, the header
 * having 8 of them; a find has 8 words of care and 8 of value. */
uint64_t fabric_verdict_v2(const uint8_t *file, size_t file_len,
                           uint8_t *area, size_t area_len,
                           uint32_t target, uint32_t limit, uint32_t budget,
                           uint32_t care0, uint32_t care1, uint32_t care2, uint32_t care3,
                           uint32_t care4, uint32_t care5, uint32_t care6, uint32_t care7,
                           uint32_t value0, uint32_t value1, uint32_t value2, uint32_t value3,
                           uint32_t value4, uint32_t value5, uint32_t value6, uint32_t value7);

uint64_t fabric_list_v2(const uint8_t *file, size_t file_len,
                        uint8_t *area, size_t area_len,
                        uint32_t target, uint32_t limit, uint32_t budget,
                        uint32_t care0, uint32_t care1, uint32_t care2, uint32_t care3,
                        uint32_t care4, uint32_t care5, uint32_t care6, uint32_t care7,
                        uint32_t value0, uint32_t value1, uint32_t value2, uint32_t value3,
                        uint32_t value4, uint32_t value5, uint32_t value6, uint32_t value7);

uint64_t fabric_run_v2(const uint8_t *file, size_t file_len,
                       uint8_t *area, size_t area_len,
                       uint32_t start, uint32_t limit, uint32_t budget,
                       uint32_t care0, uint32_t care1, uint32_t care2, uint32_t care3,
                       uint32_t care4, uint32_t care5, uint32_t care6, uint32_t care7,
                       uint32_t value0, uint32_t value1, uint32_t value2, uint32_t value3,
                       uint32_t value4, uint32_t value5, uint32_t value6, uint32_t value7);

#ifdef __cplusplus
}
#endif

#endif
