/* Prints what RTKLIB decodes of Galileo I/NAV words; tools/peers/run builds and runs it. RTKLIB's own file, fetched, is included as it is.
 *
 * Input and output are those of gpsd.c. RTKLIB scales by decimal constants, of which some are not the power of two that they stand for,
 * and gives angles in radians. So the whole number is had back by dividing by RTKLIB's own constant and rounding to the nearest integer:
 * at most 32 bits of it were multiplied with 53, so the nearest is the one that was there. The double's bits are printed where the
 * constant is the power of two and the number no angle: there RTKLIB's double is to be the same. */
#include "rcvraw.c"

static void whole(long long value) { printf(" %lld", value); }
static void rounded(double value) { whole(llround(value)); }

static void scaled(double value, double constant, int k)
{
    uint64_t image;
    memcpy(&image, &value, 8);
    rounded(value / constant);
    if (constant == ldexp(1, -k))
        printf(":%016llx", (unsigned long long)image);
}

static void angle(double value, double constant) { rounded(value / SC2RAD / constant); }

int main(void)
{
    uint8_t frame[16 + 7 * 16] = {0}; /* word 0, which is not read, and the seven */
    while (fread(frame + 16, 7 * 16, 1, stdin) == 1) {
        eph_t e = {0};
        double ion[4], utc[8];
        int satellite = 0, flags;
        /* RTKLIB refuses words of which one has another IODnav: so the one that it keeps is that of all four */
        if (!decode_gal_inav(frame, &e, ion, utc) || satsys(e.sat, &satellite) != SYS_GAL) {
            printf(" refused\n");
            continue;
        }
        whole(e.iode), rounded(e.toes / 60), angle(e.M0, P2_31), scaled(e.e, P2_33, 33);
        rounded(sqrt(e.A) / P2_19); /* RTKLIB keeps the square */
        whole(e.iode), angle(e.OMG0, P2_31), angle(e.i0, P2_31), angle(e.omg, P2_31), angle(e.idot, P2_43);
        whole(e.iode), angle(e.OMGd, P2_43), angle(e.deln, P2_43), scaled(e.cuc, P2_29, 29), scaled(e.cus, P2_29, 29);
        scaled(e.crc, P2_5, 5), scaled(e.crs, P2_5, 5), whole(e.sva);
        whole(e.iode), whole(satellite), scaled(e.cic, P2_29, 29), scaled(e.cis, P2_29, 29);
        rounded(timediff(e.toc, gst2time(e.week - 1024, 0)) / 60); /* kept as a time of the week that it gives the orbit */
        scaled(e.f0, P2_34, 34), scaled(e.f1, P2_46, 46), scaled(e.f2, P2_59, 59);
        scaled(ion[0], 0.25, 2), scaled(ion[1], P2_8, 8), scaled(ion[2], P2_15, 15);
        flags = (int)ion[3];
        for (int i = 4; i >= 0; i--)
            whole(flags >> i & 1);
        scaled(e.tgd[0], P2_32, 32), scaled(e.tgd[1], P2_32, 32);
        whole(e.svh >> 7 & 3), whole(e.svh >> 1 & 3), whole(e.svh >> 6 & 1), whole(e.svh & 1);
        scaled(utc[0], P2_30, 30), scaled(utc[1], P2_50, 50), rounded(utc[4]), rounded(utc[2] / 3600), rounded(utc[3]);
        rounded(utc[5]), rounded(utc[6]), rounded(utc[7]);
        printf(" - - - -\n"); /* word 10 is not read */
    }
    return 0;
}
