// A strain channel: counts of a foil gauge, converted to microstrain.
struct Calibration {
    double gain;
    double zero;
};

extern const Calibration calibration;

// Kept out of line, so that the object has a section group.
[[gnu::noinline]] inline double convert(int counts, const Calibration &c) {
    return (counts - c.zero) * c.gain;
}

// No bytes in the file.
double history[64];

// Filled with addresses, so that a data section has relocations too.
const Calibration *const channels[] = {&calibration, &calibration};

extern "C" double microstrain(const int *counts, int n) {
    double sum = 0;
    for (int i = 0; i < n; ++i) {
        double strain = convert(counts[i], *channels[i & 1]);
        history[i & 63] = strain;
        sum += strain;
    }
    return n ? sum / n : 0;
}
