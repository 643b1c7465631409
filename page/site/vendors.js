// The names of vendors, from the city's own list. They are shown beside numbers, and never sent.

export class Vendors {
    constructor() {
        Object.assign(this, {rows: new Map(), fault: ''});
    }

    take({vendors, fault}) {
        this.rows = new Map(vendors.map(([number, name, ...address]) => [number, {name, address: address.filter(Boolean)}]));
        this.fault = fault;
    }

    name(number) {
        return this.rows.get(Number(number))?.name || '';
    }

    /** Vendors whose number begins with a text, or whose name has it: some of them, by number. */
    like(text, most = 30) {
        const has = text.trim().toLowerCase(), found = [];
        for (const [number, {name}] of this.rows) {
            if (has && (String(number).startsWith(has) || name.toLowerCase().includes(has)) && found.push([number, name]) === most) break;
        }
        return found;
    }

    /** What is said beside a number that a clerk typed; nothing where the city has no list. */
    beside(text) {
        if (!/^\d{1,10}$/.test(text) || !this.rows.size) return '';
        return [this.name(text), ...this.address(text)].filter(Boolean).join(', ') || 'The city’s list of vendors has no such number';
    }

    /** A vendor in a sentence. */
    say(number) {
        const name = this.name(number);
        return `vendor ${number}${name ? ' ' + name : ''}`;
    }

    /** A vendor in a cell below the head "Vendor". */
    cell(number) {
        return number === undefined || number === null ? '' : `${number} ${this.name(number)}`.trim();
    }

    address(number) {
        return this.rows.get(Number(number))?.address || [];
    }
}
