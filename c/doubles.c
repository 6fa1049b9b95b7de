/* The six properties of a record in doubles, as one writes them by hand from ISO 6976:1995: no rounding, and of document 01's checks those
 * of the mark, the version, the length and that a line is in the table alone. rust/benches/ratio.rs times it beside the library. */
#include <math.h>
#include <stddef.h>
#include <stdint.h>
#include <string.h>

/* kg/kmol; s at 0, 15 and 20 °C; kJ/mol, superior and inferior, at 25, 20, 15 and 0 °C */
static double table[55][12];

/* Takes the component table in document 01's units. */
void doubles_take_table(const int32_t numbers[55][12])
{
    for (int line = 0; line < 55; line++)
        for (int column = 0; column < 12; column++)
            table[line][column] = numbers[line][column] / (column < 4 ? 1e4 : 1e3);
}

/* Z, Hs and Hi in MJ/m³, rho in kg/m³, d, and W in MJ/m³. 0 where the record is refused. */
int doubles_properties_of(const uint8_t *bytes, size_t length, double six[6])
{
    static const double air[] = {0.99941, 0.99958, 0.99963};
    if (length < 8 || memcmp(bytes, "GCR\1", 5) != 0 || length != 8 + 5 * (size_t)bytes[7])
        return 0;
    int heat = bytes[5] == 25 ? 4 : bytes[5] == 20 ? 6 : bytes[5] == 15 ? 8 : 10;
    int at = bytes[6] == 0 ? 0 : bytes[6] == 15 ? 1 : 2;
    double M = 0, s = 0, superior = 0, inferior = 0;
    for (const uint8_t *entry = bytes + 8; entry < bytes + length; entry += 5) {
        if (entry[0] < 1 || entry[0] > 55)
            return 0;
        const double *line = table[entry[0] - 1];
        uint32_t ppm;
        memcpy(&ppm, entry + 1, sizeof ppm);
        double x = ppm * 1e-6;
        M += x * line[0];
        s += x * line[1 + at];
        superior += x * line[heat];
        inferior += x * line[heat + 1];
    }
    double Z = 1 - s * s;
    double density = 101.325 / (8.31451 * (bytes[6] + 273.15)) / Z; /* kmol/m³ */
    double d = M / 28.9626 * air[at] / Z;
    six[0] = Z;
    six[1] = superior * density;
    six[2] = inferior * density;
    six[3] = M * density;
    six[4] = d;
    six[5] = six[1] / sqrt(d);
    return 1;
}
