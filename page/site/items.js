// The items of a requisition, an order or a voucher: an account with its amount each, and of a voucher the item of an order that it is of.

import {choice, fill, labelled, made} from './dom.js';
import {Account, Fault, inputOf, read} from './fields.js';
import {set} from './drafts.js';
import {money, sum} from './money.js';

export class Items {
    constructor(field, context, {doors, states, vendors}, changed) {
        Object.assign(this, {field, context, doors, states, vendors, changed, rows: []});
        this.total = made('p', {className: 'total', role: 'status'});
        this.more = made('button', {type: 'button', onclick: () => { this.add().focus(); changed(); }}, 'One more item');
        this.box = made('fieldset', {className: 'list'}, made('legend', {}, field.label), this.more, this.total);
        this.box.readList = isWhole => this.read(isWhole);
        this.box.offer = () => this.rows.forEach(row => row.account.offer());
        this.box.say = () => this.say();
        this.add();
    }

    /** Another item; its first choice, to be focused. */
    add() {
        const {field, context} = this;
        const make = part => part.name === 'order' ? this.orders() : inputOf(part, context);
        const inputs = Object.fromEntries(field.parts.map(part => [part.name, make(part)]));
        const out = made('button', {type: 'button', className: 'away', onclick: () => this.remove(row)}, 'Take out');
        // The item of an order is needed where an order is named.
        const about = part => part.label + (part.optional && part.type !== 'true or false' && part.name !== 'item' ? ' (optional)' : '');
        const boxes = field.parts.map(part => labelled(about(part), inputs[part.name], part.hint));
        const ofOrder = ['item', 'recorded', 'final'].map(name => inputs[name]?.box).filter(Boolean);
        const note = made('p', {className: 'note', role: 'status'});
        const row = {inputs, note, out, box: made('div', {className: 'item', role: 'group'}, ...boxes, out, note)};
        row.account = new Account(context, {fund: inputs.fund, dept: inputs.dept, object: inputs.object});
        if (inputs.order) {
            const show = () => ofOrder.forEach(box => { box.hidden = !inputs.order.value; });
            inputs.order.addEventListener('change', () => { show(); this.fillItems(row); });
            inputs.item.addEventListener('change', () => this.fillAccount(row));
            show();
        }
        this.rows.push(row);
        this.box.insertBefore(row.box, this.more);
        this.number();
        return inputs.fund;
    }

    remove(row) {
        this.rows.splice(this.rows.indexOf(row), 1);
        row.box.remove();
        this.number();
        this.more.focus();
        this.changed();
    }

    /** Names the items by their places. The only one can't be taken out. */
    number() {
        this.rows.forEach(({box, out}, place) => {
            box.setAttribute('aria-label', `Item ${place + 1}`);
            out.setAttribute('aria-label', `Take item ${place + 1} out`);
            out.hidden = this.rows.length === 1;
        });
        this.more.disabled = this.rows.length >= this.field.most;
    }

    /** The orders that may be open, by their names. */
    orders() {
        const text = ({number, key, who}) => `${number} ${key}, ${this.vendors.cell(who)}`;
        return choice({name: 'order'}, this.context.lists.of('order').map(each => [each.number, text(each)]), 'None');
    }

    /** The items of the order that is chosen, each with what is open of it as a door has it. */
    async fillItems(row) {
        const {inputs, note} = row, number = inputs.order.value, found = this.context.lists.document('order', number);
        note.textContent = found ? `Order ${number}: ${found.key}, ${this.vendors.say(found.who)}` : '';
        if (!found) return fill(inputs.item, [], 'Choose');
        fill(inputs.item, found.items.map((item, place) => [place + 1, `${place + 1}: ${this.context.chart.account(...item)}`]), 'Choose');
        if (!inputs.item.value) inputs.item.value = '1';
        this.fillAccount(row);
        const {vendor} = this.context.form.elements;
        if (!vendor.value) set(vendor, found.who);
        const said = await this.doors.look({call: 'order', order: Number(number)}).catch(() => null);
        if (!said?.is || inputs.order.value !== number) return;
        said.is.items.forEach((item, place) => { inputs.item.options[place + 1].textContent = this.states.item(item, place); });
    }

    fillAccount({inputs, account}) {
        const found = this.context.lists.document('order', inputs.order.value)?.items[Number(inputs.item.value) - 1];
        if (found) account.set(...found.slice(0, 3));
        this.changed();
    }

    read(isWhole) {
        const used = this.rows.filter(({inputs}) => isWhole || inputs.amount.value);
        return used.map(({inputs}) => {
            const isOf = Boolean(inputs.order?.value);
            const made = this.field.parts.flatMap(part => {
                if (part.optional && !isOf) return [];
                const needed = isWhole && (!part.optional || part.name === 'item');
                const found = read(part, inputs[part.name], needed);
                return found === undefined ? [] : [[part.name, found]];
            });
            const item = Object.fromEntries(made);
            if (item.final && item.recorded !== undefined) throw new Fault(inputs.recorded, 'An item has one of these, not both');
            return item;
        });
    }

    say() {
        try {
            const items = this.read(false);
            this.total.textContent = items.length > 1 ? `${items.length} items, ${money(sum(items.map(item => item.amount)))} in all` : '';
        } catch {
            this.total.textContent = '';
        }
    }
}
