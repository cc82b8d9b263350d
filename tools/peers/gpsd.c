/* Prints what gpsd decodes of Galileo I/NAV words; tools/peers/run builds and runs it. gpsd's own file, fetched, is included as it is.
 *
 * Standard input: for each orbit its words 1, 2, 3, 4, 5, 6 and 10, of 16 bytes each. Standard output: for each orbit a line of 52
 * fields in the table's order (tools/peers/run), with a space before each: `-` where gpsd does not decode it, else the whole number;
 * behind that, for a scaled field, a colon and the 64 bits of gpsd's double in hex, and `%256` where gpsd keeps its last 8 bits alone. */
#include "gpsd/subframe.c"

/* the one function of gpsd's that the decoder calls; what else subframe.c wants is left out by the linker with the rest of it */
void gpsd_log(const int level, const struct gpsd_errout_t *errout, const char *text, ...)
{
    (void)level, (void)errout, (void)text;
}

static struct gps_device_t session;

static uint32_t bits(const uint8_t *word, int from, int many)
{
    uint32_t value = 0;
    for (int i = from; i < from + many; i++)
        value = value << 1 | (word[i / 8] >> (7 - i % 8) & 1);
    return value;
}

/* Decodes a word as gpsd has it of a receiver: an even page of 112 bits behind its two flags, and an odd one of 16. */
static gps_mask_t decode(const uint8_t *word, unsigned satellite)
{
    uint32_t pages[8] = {bits(word, 0, 30), bits(word, 30, 32), bits(word, 62, 32), bits(word, 94, 18) << 14,
                         1u << 31 | bits(word, 112, 16) << 14};
    return subframe_gal(&session, satellite, pages, 8);
}

static void whole(double value) { printf(" %.17g", value); }

/* gpsd has an int8_t for the ten bits of IODnav */
static void iod(int value) { printf(" %d%%256", value & 255); }

/* gpsd scales by powers of two, which lose nothing, so the whole number is had back exactly. */
static void scaled(double value, int k)
{
    uint64_t image;
    memcpy(&image, &value, 8);
    printf(" %.17g:%016llx", ldexp(value, k), (unsigned long long)image);
}

/* gpsd does not keep the satellite that word 4 names: it takes the word if it is the one it had it of. So all 64 are tried. */
static int named(const uint8_t *word)
{
    int found = -1, many = 0;
    for (unsigned satellite = 0; satellite < 64; satellite++)
        if (decode(word, satellite) != 0)
            found = (int)satellite, many++;
    return many == 1 ? found : -1;
}

int main(void)
{
    const orbit_t *o = &session.gpsdata.subframe.orbit;
    uint8_t word[7][16];
    while (fread(word, sizeof word, 1, stdin) == 1) {
        decode(word[0], 1);
        iod(o->IODE), whole(o->toe / 60.0), scaled(o->M0, 31), scaled(o->eccentricity, 33), scaled(o->sqrtA, 19);
        decode(word[1], 1);
        iod(o->IODE), scaled(o->Omega0, 31), scaled(o->i0, 31), scaled(o->omega, 31), scaled(o->IDOT, 43);
        decode(word[2], 1);
        iod(o->IODE), scaled(o->Omegad, 43), scaled(o->deltan, 43), scaled(o->Cuc, 29), scaled(o->Cus, 29);
        scaled(o->Crc, 5), scaled(o->Crs, 5), whole(o->SISAb);
        int satellite = named(word[3]);
        decode(word[3], 1);
        iod(o->IODE), whole(satellite), scaled(o->Cic, 29), scaled(o->Cis, 29), whole(o->toc / 60.0);
        scaled(o->af0, 34), scaled(o->af1, 46), scaled(o->af2, 59);
        /* of words 5 and 6 gpsd reads the time alone, and of word 10 the almanac */
        for (int i = 0; i < 26; i++)
            printf(" -");
        printf("\n");
    }
    return 0;
}
