/* Symbols by zint's library, without a picture. */
#include "peer.h"
#include <zint.h>

static int make(const struct job *job, int *dark)
{
    struct zint_symbol *symbol = ZBarcode_Create();
    symbol->symbology = job->micro ? BARCODE_MICROQR : BARCODE_QRCODE;
    symbol->input_mode = DATA_MODE;
    symbol->option_1 = job->level + 1;
    symbol->option_2 = job->version;
    if (!job->micro)
        symbol->option_3 = ZINT_FULL_MULTIBYTE;
    if (ZBarcode_Encode(symbol, job->bytes, job->length) >= ZINT_ERROR)
        fail(symbol->errtxt);
    const int side = symbol->width;
    for (int k = 0; dark && k < side * side; k++)
        *dark += symbol->encoded_data[k / side][k % side / 8] >> (k % side % 8) & 1;
    ZBarcode_Delete(symbol);
    return side;
}
