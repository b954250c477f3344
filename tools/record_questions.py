"""What another program answers of two records files: tools/record_rows.py, tools/compare_changes.py."""


def answer_of(first, second, question):
    """Its answer to a question of crates/tests_collation_rows on two files that it read."""
    asked, *words = question.split(' ')
    if asked == 'settings':
        return 'equal' if first.settings_equal(second) else 'different'
    if asked == 'changed':
        return 'changed' if first.changed(second, int(words[0], 16)) else 'same'
    text, *characters = words
    text = bytes.fromhex(text.replace('-', '')).decode('utf-8', 'replace')
    reached = first.reached(map(ord, text))
    return 'reaches' if any(int(c, 16) in reached for c in characters) else 'not'
