# A text of LINES lines of ten words, of which one in SPARSE is no word: 1 for all, 20 for one in two lines.
BEGIN {
    count = split("the people of this town have read about their own houses with great interest and some of them were not pleased", good)
    letters = "abcdefghijklmnopqrstuvwxyz"
    seed = 1
    for (line = 1; line <= LINES; line++) {
        text = ""
        for (word = 1; word <= 10; word++) {
            seed = (seed * 16807) % 2147483647
            one = good[seed % count + 1]
            if (seed % SPARSE == 0) {
                one = one "q" substr(letters, int(seed / 7) % 26 + 1, 1) substr(letters, int(seed / 977) % 26 + 1, 1)
            }
            text = text (word > 1 ? " " : "") one
        }
        print text
    }
}
