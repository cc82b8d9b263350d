/* Prints what GNSS-SDR decodes of Galileo I/NAV words; tools/peers/run builds and runs it. GNSS-SDR's own file, fetched, is included as it is.
 *
 * Input and output are those of gpsd.c. GNSS-SDR scales by decimal constants as RTKLIB does, the angles to radians: so the whole number is
 * had back as in rtklib.c, and the double's bits are printed where the constant is the power of two. The headers that it takes from Boost
 * and glog are empty files here; what it names of them stands below, and is not called: the decoder of a word uses no checksum. */
#include <cmath>
#include <cstdint>
#include <cstdio>
#include <cstring>
#include <iterator>
#include <ostream>
#include <sstream>
#include <string>

#define BOOST_SERIALIZATION_NVP(name) name
#define LOG(level) if (true) {} else std::ostream(nullptr)
#define DLOG(level) LOG(level)

namespace boost
{
namespace serialization
{
template <class T> T &make_nvp(const char *, T &value) { return value; }
}
template <int, unsigned, unsigned, unsigned, bool, bool> struct crc_optimal {
    void process_bytes(const void *, std::size_t) {}
    void reset(unsigned = 0) {}
    unsigned checksum() const { return 0; }
};
template <class T> struct dynamic_bitset {
    explicit dynamic_bitset(const std::string &) {}
};
template <class T, class I> void to_block_range(const T &, I) {}
}

#include "galileo_inav_message.cc"
#include "galileo_ism.cc"
#include "reed_solomon.cc"

static void whole(long long value) { std::printf(" %lld", value); }
static void units(int value, int unit) { whole(value % unit == 0 ? value / unit : -1); }

static void scaled(double value, double constant, int k)
{
    uint64_t image;
    std::memcpy(&image, &value, 8);
    whole(std::llround(value / constant));
    if (constant == std::ldexp(1, -k))
        std::printf(":%016llx", static_cast<unsigned long long>(image));
}

int main()
{
    uint8_t words[7][16];
    Galileo_Inav_Message m;
    while (std::fread(words, sizeof words, 1, stdin) == 1) {
        for (const auto &word : words) {
            std::string bits;
            for (int i = 0; i < 128; i++)
                bits += word[i / 8] >> (7 - i % 8) & 1 ? '1' : '0';
            m.page_jk_decoder(bits.c_str());
        }
        whole(m.IOD_nav_1), units(m.t0e_1, T0E_1_LSB), scaled(m.M0_1, M0_1_LSB, 31), scaled(m.e_1, E_1_LSB, 33);
        scaled(m.A_1, A_1_LSB_GAL, 19);
        whole(m.IOD_nav_2), scaled(m.OMEGA_0_2, OMEGA_0_2_LSB, 31), scaled(m.i_0_2, I_0_2_LSB, 31), scaled(m.omega_2, OMEGA_2_LSB, 31);
        scaled(m.iDot_2, I_DOT_2_LSB, 43);
        whole(m.IOD_nav_3), scaled(m.OMEGA_dot_3, OMEGA_DOT_3_LSB, 43), scaled(m.delta_n_3, DELTA_N_3_LSB, 43);
        scaled(m.C_uc_3, C_UC_3_LSB, 29), scaled(m.C_us_3, C_US_3_LSB, 29), scaled(m.C_rc_3, C_RC_3_LSB, 5);
        scaled(m.C_rs_3, C_RS_3_LSB, 5), whole(m.SISA_3);
        whole(m.IOD_nav_4), whole(m.SV_ID_PRN_4), scaled(m.C_ic_4, C_IC_4_LSB, 29), scaled(m.C_is_4, C_IS_4_LSB, 29);
        units(m.t0c_4, T0C_4_LSB), scaled(m.af0_4, AF0_4_LSB, 34), scaled(m.af1_4, AF1_4_LSB, 46), scaled(m.af2_4, AF2_4_LSB, 59);
        scaled(m.ai0_5, AI0_5_LSB, 2), scaled(m.ai1_5, AI1_5_LSB, 8), scaled(m.ai2_5, AI2_5_LSB, 15);
        whole(m.Region1_flag_5), whole(m.Region2_flag_5), whole(m.Region3_flag_5), whole(m.Region4_flag_5), whole(m.Region5_flag_5);
        scaled(m.BGD_E1E5a_5, BGD_E1_E5A_5_LSB, 32), scaled(m.BGD_E1E5b_5, BGD_E1_E5B_5_LSB, 32);
        whole(m.E5b_HS_5), whole(m.E1B_HS_5), whole(m.E5b_DVS_5), whole(m.E1B_DVS_5);
        scaled(m.A0_6, A0_6_LSB, 30), scaled(m.A1_6, A1_6_LSB, 50), whole(m.Delta_tLS_6), units(m.t0t_6, T0T_6_LSB);
        whole(m.WNot_6), whole(m.WN_LSF_6), whole(m.DN_6), whole(m.Delta_tLSF_6);
        scaled(m.A_0G_10, A_0G_10_LSB, 35), scaled(m.A_1G_10, A_1G_10_LSB, 51), units(m.t_0G_10, T_0_G_10_LSB), whole(m.WN_0G_10);
        std::printf("\n");
    }
}
