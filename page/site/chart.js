// The chart's names, its fiscal years, and which control line an account has in a year.

const MONTHS = ['January', 'February', 'March', 'April', 'May', 'June', 'July', 'August', 'September', 'October', 'November', 'December'];

export class Chart {
    constructor(rows) {
        Object.assign(this, rows);
        this.byKey = new Map(this.line.map((line, number) => [this.keyOf(line), number]));
    }

    find(table, id) {
        return this[table].find(row => row.id === Number(id));
    }

    name(table, id) {
        const row = this.find(table, id);
        return row ? row.name : `${table} ${id}`;
    }

    /** Pairs for a choice of a table's rows. */
    pairs(table, keep = () => true) {
        return this[table].filter(keep).map(row => [row.id, `${row.id} ${row.name}`]);
    }

    /** The fiscal year of a day, by its first month. */
    yearOf(day) {
        const [year, month] = day.split('-').map(Number);
        return this.first_month === 1 || month < this.first_month ? year : year + 1;
    }

    keyOf(line) {
        return [line.fund, line.dept, line.object ?? '', line.class ?? '', Boolean(line.later)].join();
    }

    isLater(fund, year) {
        const row = this.find('fund', fund);
        return Boolean(row && row.later_year && year >= row.later_year);
    }

    /** The number of an account's control line in a fiscal year, or nothing. */
    lineOf(fund, dept, object, year) {
        const row = this.find('fund', fund), later = this.isLater(fund, year);
        if (!row) return undefined;
        const level = later ? row.later_level : row.level;
        const of = {department: {}, class: {class: this.find('object', object)?.class}, object: {object: Number(object)}}[level];
        return this.byKey.get(this.keyOf({fund: Number(fund), dept: Number(dept), later, ...of}));
    }

    /** The numbers of a fund's lines in a year; of all funds where none is named. */
    linesOf(year, fund) {
        return this.line.flatMap((line, number) =>
            (!fund || line.fund === Number(fund)) && Boolean(line.later) === this.isLater(line.fund, year) ? [number] : []);
    }

    part(line) {
        if (line.object !== undefined) return this.name('object', line.object);
        return line.class !== undefined ? this.className(line.class) : 'all objects';
    }

    /** A class has no name of its own: it is called by its first objects. */
    className(id) {
        const names = this.object.filter(row => row.class === id).map(row => row.name), first = names.slice(0, 2).join(', ');
        const more = names.length - 2;
        return `class ${id}${first ? ` (${first}${more > 0 ? ` and ${more} more` : ''})` : ''}`;
    }

    /** A line by its names: Streets, Supplies. */
    lineName(number) {
        const line = this.line[number];
        return line ? `${this.name('department', line.dept)}, ${this.part(line)}` : `line ${number}`;
    }

    /** The same, below its fund. */
    lineInFull(number) {
        const line = this.line[number];
        return line ? `${this.name('fund', line.fund)}: ${this.lineName(number)}` : `line ${number}`;
    }

    account(fund, dept, object) {
        return `${this.name('fund', fund)}: ${this.name('department', dept)}, ${this.name('object', object)}`;
    }
}

/** 2025-07 as July 2025, 2025-07-05 as July 5, 2025. */
export function dated(text) {
    const [year, month, day] = String(text).split('-');
    return MONTHS[month - 1] ? `${MONTHS[month - 1]} ${day ? Number(day) + ', ' : ''}${year}` : String(text);
}

/** A moment, as the clerk's clock has it: 2026-12-01 14:05. */
export const local = moment => new Date(Date.parse(moment) - new Date(moment).getTimezoneOffset() * 60000).toISOString().slice(0, 16).replace('T', ' ');

/** Today where the clerk is. */
export const today = () => new Date(Date.now() - new Date().getTimezoneOffset() * 60000).toISOString().slice(0, 10);
