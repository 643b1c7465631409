// The views, each with an address of its own: #enter/voucher, #lines/2027, #open/order,
// #find/inv-612, #entry/40, #ledger/2027/line/12, #month/2027-01, #statements/2027/budget,
// #council/2027, #sent and #paper/order/12. What isn't one of them leaves the view as it is.

import {byId} from './dom.js';
import {today} from './chart.js';

// The choices of a view that stand in its address. Other views say theirs by `toAddress`, and take
// them by `fromAddress`.
const CHOICES = {enter: ['call'], lines: ['lines-year', 'lines-fund', 'lines-dept'], open: ['open-kind'], council: ['council-year']};
// Views whose address says which paper or entry is shown.
const OF_ONE = ['paper', 'entry'];

export class Views {
    constructor(chart, roles, views) {
        // Today's year is left out of an address, so that a bookmark shows that of its day.
        Object.assign(this, {chart, roles, views, year: String(chart.yearOf(today()))});
        for (const button of document.querySelectorAll('nav button')) button.addEventListener('click', () => this.go(button.dataset.view));
        for (const id of Object.values(CHOICES).flat()) if (id !== 'call') byId(id).addEventListener('change', () => this.tell());
        for (const view of Object.values(views)) view.told = () => this.tell();
        addEventListener('hashchange', () => this.follow());
        for (const id of ['enter', 'sent']) document.querySelector(`nav [data-view=${id}]`).hidden = !roles.length;
    }

    begin() {
        if (!this.follow()) this.go(this.roles.length ? 'enter' : 'lines', true);
    }

    /** Shows the view of the address, with its choices. */
    follow() {
        const [name, ...rest] = location.hash.slice(1).split('/').map(part => decodeURIComponent(part));
        if (!this.views[name] || ['enter', 'sent'].includes(name) && !this.roles.length) return false;
        this.name = name;
        this.views[name].fromAddress?.(rest, this.year);
        (CHOICES[name] || []).forEach((id, place) => {
            const input = byId(id), value = rest[place] || (id.endsWith('-year') ? this.year : '');
            if (input.value === value || ![...input.options].some(option => option.value === value)) return;
            input.value = value;
            if (id === 'call') input.dispatchEvent(new Event('change'));
        });
        this.show(name, rest);
        return true;
    }

    /** Goes to a view, and puts it into the address. */
    go(name, isFirst = false) {
        this.name = name;
        this.tell(isFirst);
        this.show(name, []);
    }

    /** Puts the view and its choices into the address. */
    tell(isFirst = false) {
        const values = this.views[this.name].toAddress?.(this.year) ||
            (CHOICES[this.name] || []).map(id => id.endsWith('-year') && byId(id).value === this.year ? '' : byId(id).value);
        while (values.length && !values.at(-1)) values.pop();
        const address = '#' + [this.name, ...values].map(encodeURIComponent).join('/');
        if (OF_ONE.includes(this.name) || address === location.hash) return;
        history[isFirst ? 'replaceState' : 'pushState'](null, '', address);
    }

    show(name, rest) {
        const isOther = byId(name).hidden || OF_ONE.includes(name);
        // A line's documents lead to an entry: left open they would hold the keyboard and the mouse.
        for (const dialog of document.querySelectorAll('dialog[open]')) dialog.close();
        // A link goes away with its view, as one to an entry: the keyboard goes on in the other one.
        const isLeft = isOther && document.activeElement.closest('main > section');
        this.name = name;
        for (const part of document.querySelectorAll('main > section')) part.hidden = part.id !== name;
        document.title = this.chart.city;
        for (const button of document.querySelectorAll('nav button')) {
            if (button.dataset.view !== name) {
                button.removeAttribute('aria-current');
                continue;
            }
            button.setAttribute('aria-current', 'page');
            document.title = `${this.chart.city}: ${button.textContent}`;
        }
        // An address scrolls to its view, below the head; a button leaves the place of the last one.
        if (isOther) scrollTo(0, 0);
        if (isLeft) byId('main').focus({preventScroll: true});
        if (name !== 'enter') this.views[name].show(rest);
    }
}
