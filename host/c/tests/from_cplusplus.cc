// The header in a C++ program: the functions are C functions there too, and the structs are plain data with names of their own.
#include "btt.h"

int main()
{
    uint8_t none[1] = {0};
    uint64_t offset = 1, length = 1;
    uint32_t mended = 1;
    btt_handle handle;
    btt_lane record, table[2];

    btt_info_block(NULL, 0, &offset, &length);
    if (offset != 0 || length != 0 || btt_open(none, 0, none, 0, BTT_LAYOUT_NEAR, table, 2, &handle, &mended) != BTT_WRONG_LENGTH
        || mended != 0) {
        return 1;
    }
    if (btt_cut_open(none, 0, none, 0, BTT_LAYOUT_FAR, NULL, 0, 1, &mended) != BTT_WRONG_LENGTH
        || btt_open(none, 0, none, 0, 48, table, 2, &handle, &mended) != BTT_BAD_HANDLE) {
        return 1;
    }
    if (btt_replay(none, 0, none, 0, NULL, 0, NULL, 0, &offset, &length) != BTT_WRONG_LENGTH || btt_answer_text(BTT_BAD_RECORD)[0] == '\0') {
        return 1;
    }
    if (sizeof handle != 64 || sizeof record != 28 || btt_answer_text(BTT_SHORT_TABLE)[0] == '\0') {
        return 1;
    }
    return btt_lane_record(NULL, 0, &handle, table, 2, 0, &record) == BTT_BAD_HANDLE && btt_answer_text(BTT_BAD_HANDLE)[0] != '\0' ? 0 : 1;
}
