// Money: whole cents as BigInt, from and to texts. No amount is ever a number with a point.

export const LARGEST = 10n ** 13n;

/** The cents of an amount that is typed as 1234.50, 1,234.50 or 1,234; or nothing. */
export function cents(text) {
    const found = /^(-?)(\d{1,3}(?:,\d{3})+|\d{1,16})(?:\.(\d\d))?$/.exec(text.trim());
    return found ? BigInt(found[1] + found[2].replaceAll(',', '') + (found[3] || '00')) : null;
}

/** An amount of cents, a BigInt or a text of digits, as money: 1,234.50. */
export function money(given) {
    const amount = BigInt(given), size = amount < 0n ? -amount : amount;
    const whole = (size / 100n).toString().replace(/\B(?=(\d{3})+$)/g, ',');
    return `${amount < 0n ? '-' : ''}${whole}.${(size % 100n).toString().padStart(2, '0')}`;
}

/** The same without commas, for a sheet. */
export const plain = given => money(given).replaceAll(',', '');

export const sum = amounts => amounts.reduce((all, each) => all + BigInt(each), 0n);

/** A value of a call as JSON: integers are BigInt, and come out as their digits. */
export function json(value) {
    if (typeof value === 'bigint') return value.toString();
    if (Array.isArray(value)) return '[' + value.map(json).join(',') + ']';
    if (value !== null && typeof value === 'object') {
        return '{' + Object.entries(value).map(([name, each]) => JSON.stringify(name) + ':' + json(each)).join(',') + '}';
    }
    return JSON.stringify(value);
}
