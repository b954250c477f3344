"""The small files of `records`, as tools/make_records.py makes them: characters, rules and a header for each.

`locale` is the collator of ICU4C that orders the same names (tools/sort_alphabets.py). Characters in `whole` are not decomposed.
"""
import collections
import unicodedata

Alphabet = collections.namedtuple('Alphabet', 'locale characters rules header whole', defaults=[''])

BETWEEN = '0-9 \'\u2019.U+002D'
LATIN = 'a-zA-Z' + BETWEEN
# what else stands in names and addresses, for files that have room: "Last, First"
FURTHER = ',()/&_;:!?"'
HIRAGANA = ''.join(map(chr, range(0x3041, 0x3097)))
KATAKANA = ''.join(map(chr, range(0x30A1, 0x30FB)))
VOICE = '\u3099'


def both_cases(letters):
    """The letters and their capitals."""
    return ''.join(letter + letter.upper() for letter in letters)


def base(kana):
    """The plain form of a small or voiced kana."""
    plain = unicodedata.normalize('NFD', kana)[0]
    return unicodedata.lookup(unicodedata.name(plain).replace('SMALL ', ''))


def kana_rules(letters, repeat, voiced_repeat):
    """CLDR's rules of length marks, which sort as the vowel before them, and of marks that repeat a kana."""
    rules = f'&ゝ={repeat}={repeat}{VOICE}/{VOICE}={voiced_repeat}/{VOICE}'
    for vowel in letters[:10:2]:
        ends_so = [kana for kana in letters if unicodedata.name(kana)[-1] == unicodedata.name(vowel)[-1]]
        rules += f'&[before 3]{vowel}<<<' + '='.join(f'{kana}|ー' for kana in ends_so)
    for plain in dict.fromkeys(map(base, letters)):
        forms = [kana for kana in letters if base(kana) == plain]
        repeats = [f'{kana}|{repeat}' for kana in forms] + [f'{kana}|{voiced_repeat}/{VOICE}' for kana in forms]
        rules += f'&[before 3]{plain}<<<' + '='.join(repeats)
    return rules


def voiced(letters):
    """The kana that decompose."""
    return ''.join(kana for kana in letters if unicodedata.normalize('NFD', kana) != kana)


ALPHABETS = {
    'latin': Alphabet(
        'root', LATIN + both_cases('æœøðþàáâãäåçèéêëìíîïñòóôõöùúûüýÿ') + 'ß', '',
        'English and the languages of western Europe: the letters a to z, with marks that count at the second level.\n'
        'The order is that of the Unicode root collation: ae and oe ligatures, sharp s, and letters with a stroke stand\n'
        'with the letters that they are made of; eth and thorn are letters of their own, behind d and t.'),
    'german': Alphabet(
        'de@collation=phonebook', LATIN + both_cases('äöüàáâçèéêëñóôø') + 'ßẞ', '&AE<<ä<<<Ä&OE<<ö<<<Ö&UE<<ü<<<Ü',
        'German as in telephone books (DIN 5007, variant 2): a, o and u with diaeresis count as ae, oe and ue,\n'
        'behind them at the second level. Sharp s counts as ss.'),
    'swedish': Alphabet(
        'sv', LATIN + both_cases('åäöàáéèüæøœðđþęőűô'),
        '&D<<đ<<<Đ<<ð<<<Ð&t<<<þ/h&T<<<Þ/H&Y<<ü<<<Ü<<ű<<<Ű'
        '&[before 1]ǀ<å<<<Å<ä<<<Ä<<æ<<<Æ<<ę<<<Ę<ö<<<Ö<<ø<<<Ø<<ő<<<Ő<<œ<<<Œ<<ô<<<Ô',
        'Swedish: a with ring, a with diaeresis and o with diaeresis are letters behind z, in this order. The Danish\n'
        'ae and o with stroke stand with them, u with diaeresis with y, thorn with th.'),
    'danish': Alphabet(
        'da', LATIN + both_cases('æøåäöőüűéáèêôœðđþ'),
        '[caseFirst upper]&D<<đ<<<Đ<<ð<<<Ð&th<<<þ&TH<<<Þ&Y<<ü<<<Ü<<ű<<<Ű'
        '&[before 1]ǀ<æ<<<Æ<<ä<<<Ä<ø<<<Ø<<ö<<<Ö<<ő<<<Ő<å<<<Å<<<aa<<<Aa<<<AA&oe<<œ<<<Œ',
        'Danish: ae, o with stroke and a with ring are letters behind z, in this order, and aa is the same letter as\n'
        'a with ring. Where two names differ in case alone, the one with the capital comes first.'),
    'spanish': Alphabet(
        'es@collation=traditional', LATIN + both_cases('áéíóúüñàçèïò'), '&N<ñ<<<Ñ&C<ch<<<Ch<<<CH&l<ll<<<Ll<<<LL',
        'Spanish in the traditional order: ch is a letter behind c, ll one behind l, and n with tilde one behind n.'),
    'french_canada': Alphabet(
        'fr_CA', LATIN + both_cases('àâæçéèêëîïôœùûüÿ'), '[backwards 2]',
        'French of Canada: the letters of the root collation, but marks count from the end of a name.'),
    'czech': Alphabet(
        'cs', LATIN + both_cases('áčďéěíňóřšťúůýžäöü'),
        '&C<č<<<Č&H<ch<<<cH<<<Ch<<<CH&R<ř<<<Ř&S<š<<<Š&Z<ž<<<Ž',
        'Czech: c, r, s and z with caron are letters behind those without, and ch is a letter behind h. Other marks\n'
        'count at the second level.'),
    'polish': Alphabet(
        'pl', LATIN + both_cases('ąćęłńóśźżéäöü'), '&A<ą<<<Ą&C<ć<<<Ć&E<ę<<<Ę&L<ł<<<Ł&N<ń<<<Ń&O<ó<<<Ó&S<ś<<<Ś&Z<ź<<<Ź<ż<<<Ż',
        'Polish: each letter with a mark of its own is a letter behind the plain one, z with acute before z with dot.'),
    'turkish': Alphabet(
        'tr', LATIN + both_cases('çğöşüâûé') + 'ıİîÎ', '&C<ç<<<Ç&G<ğ<<<Ğ&[before 1]i<ı<<<I&i<<<İ&O<ö<<<Ö&S<ş<<<Ş&U<ü<<<Ü',
        'Turkish: i without dot, whose capital is I, is a letter before i, whose capital has a dot. C, g, o, s and u\n'
        'with a mark are letters behind those without.'),
    'lithuanian': Alphabet(
        'lt', LATIN + both_cases('ąčęėįšųūžàáãèéẽìíĩòóõùúũýỹñ') + '\u0302\u0304-\u0307',
        '[dotAbove on]&A<<ą<<<Ą&C<č<<<Č&E<<ę<<<Ę<<ė<<<Ė&I<<į<<<Į<<y<<<Y&S<š<<<Š&U<<ų<<<Ų<<ū<<<Ū&Z<ž<<<Ž',
        'Lithuanian: y counts as a form of i, c, s and z with caron are letters behind those without, and the other\n'
        'letters stand with the plain ones. A dot above that is kept under an accent does not count.'),
    'greek': Alphabet(
        'el', LATIN + both_cases('αβγδεζηθικλμνξοπρστυφχψωάέήίόύώϊϋ') + 'ςΐΰ\u0300\u0313\u0314\u0342\u0345', '[reorder Grek]',
        'Greek: marks count at the second level, final sigma at the third. Greek letters stand before Latin ones.'),
    'russian': Alphabet(
        'ru', LATIN + 'а-яА-ЯёЁ\u0301', '[reorder Cyrl]',
        'Russian: io counts as ie with a mark, short i is a letter behind i. Cyrillic letters stand before Latin ones.'),
    'ukrainian': Alphabet(
        'uk', LATIN + 'а-яА-ЯёЁ' + both_cases('ґєії') + '\u02BC\u0301', '[reorder Cyrl]&Г<ґ<<<Ґ&ꙇ<ї<<<ꙶ<<<Ї',
        'Ukrainian: ghe with upturn is a letter behind ghe, and yi one behind i. Cyrillic letters stand before Latin ones.'),
    'hebrew': Alphabet(
        'he', LATIN + '"א-ת\u05B0-\u05BC\u05C1\u05C2־׳״', '[reorder Hebr]&[before 2]\'\'<<׳&[before 2]\'"\'<<״',
        'Hebrew: points count at the second level, final letters at the third. Geresh and gershayim stand with the\n'
        'apostrophe and the quotation mark. Hebrew letters stand before Latin ones.'),
    'thai': Alphabet(
        'th', BETWEEN + 'ก-\u0E3A฿-๛',
        '[alternate shifted][reorder Thai]&[before 1]๚<ฯ&๛<ๆ&\u0E4E<<\u0E4C&[before 1]ะ<\u0E4D'
        '&า<<<ๅ&า\u0E4D<<<\u0E4Dา<<<ำ&ๅ\u0E4D<<<\u0E4Dๅ&ไ<\u0E3A',
        'Thai: a vowel that is written before its consonant counts behind it, by a contraction for each pair. Tone\n'
        'marks count at the second level; spaces and punctuation count only where a fourth level is asked for.'),
    'hiragana': Alphabet(
        'ja', BETWEEN + '・ゝゞー' + VOICE + '\u309A' + HIRAGANA, kana_rules(HIRAGANA, 'ゝ', 'ゞ'),
        'Japanese in hiragana: voice marks count at the second level; small kana, length marks and marks that repeat\n'
        'a kana at the third. A length mark counts as the vowel before it, by a prefix for each kana. A prefix has\n'
        'no marks, so a voiced kana is not decomposed, and a contraction says that the kana and the mark are the same;\n'
        'a length mark behind such a pair counts as a character of its own.', voiced(HIRAGANA) + 'ゞ'),
    'katakana': Alphabet(
        'ja', BETWEEN + '・ヽヾー' + VOICE + '\u309A' + KATAKANA, kana_rules(KATAKANA, 'ヽ', 'ヾ'),
        'Japanese in katakana: voice marks count at the second level; small kana, length marks and marks that repeat\n'
        'a kana at the third. A length mark counts as the vowel before it, by a prefix for each kana. A prefix has\n'
        'no marks, so a voiced kana is not decomposed, and a contraction says that the kana and the mark are the same;\n'
        'a length mark behind such a pair counts as a character of its own.', voiced(KATAKANA) + 'ヾ'),
    'korean': Alphabet(
        'ko', BETWEEN + '\u1100-\u1112\u1161-\u1175\u11A8-\u11C2ㄱ-ㅎㅏ-ㅣ', '',
        'Korean: the jamo, by which the program orders all syllables, as these decompose. Letters that stand alone\n'
        'differ from them at the third level.'),
    'han': Alphabet(
        'root', LATIN + 'U+4E00-U+9FFF', '',
        'Han characters by one range, in the order of their code points, which is that of radicals and strokes but\n'
        'for characters that were added later. Latin letters stand before them.'),
}
# The tags of languages whose tailorings tools/language_rows.py puts over the root.
LANGUAGES = 'am ar-compat be bn cs da de-phonebook el et fa gu he hi hu ka kn mk pa ru sv ta te th tr vi'.split()
