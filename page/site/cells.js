// Cells of a sheet of comma-separated values.

// What a spreadsheet takes for a formula: it begins with one of these marks, or with a minus that
// no amount follows.
const FORMULA = /^[=+@\t\r]|^-(?![\d.]*$)/;

/** A text as a cell: a formula has a quote before it, and so is a text to a spreadsheet. */
export function cell(text) {
    const guarded = FORMULA.test(text) ? `'${text}` : text;
    return /[",\r\n]/.test(guarded) ? `"${guarded.replaceAll('"', '""')}"` : guarded;
}

/** Rows of texts as a sheet. */
export const sheet = rows => rows.map(row => row.map(cell).join(',') + '\r\n').join('');
