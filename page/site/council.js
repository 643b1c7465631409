// For the council: the budget of each fund against what was spent and came in, as a picture.

import {byId, drawn, made, row, table, tell} from './dom.js';
import {added, fundsOf, PARTS} from './bars.js';
import {money, sum} from './money.js';

const BAR = 18;
// The words of a bar stand beside it; on a phone above it, where `words` is their height.
const BESIDE = {width: 900, left: 90, right: 300, words: 0, high: 92};
const ABOVE = {width: 340, left: 1, right: 1, words: 18, high: 126};
const PHONE = matchMedia('screen and (max-width: 720px)');

export class Council {
    constructor(city) {
        Object.assign(this, city);
        byId('council-form').addEventListener('submit', event => { event.preventDefault(); this.show(); });
        byId('council-year').addEventListener('change', () => this.show());
        byId('council-print').addEventListener('click', () => print());
        PHONE.addEventListener('change', () => { if (!byId('council').hidden) this.show(); });
    }

    async show() {
        const turn = this.turn = Symbol();
        const year = Number(byId('council-year').value), place = byId('council-picture');
        const said = await this.doors.look({call: 'report', year, kind: 'budget'}).catch(fault => ({fault}));
        if (turn !== this.turn) return;
        if (!said.is) return place.replaceChildren(this.words.failed(said));
        const funds = fundsOf(said.is.rows, this.chart).map(inAll), title = `${this.chart.city}: budget against actual, fiscal year ${year}`;
        const age = made('p', {className: 'hint'}, `As of entry ${said.at}. Each fund has a scale of its own: its larger budget is the whole width.`);
        place.replaceChildren(made('h2', {}, title), this.picture(funds, title), this.figures(funds, title), age);
        tell(title);
    }

    /**
     * Two bars a fund over its own scale: what is appropriated with what is spent of it, and what is
     * estimated with what came in.
     */
    picture(funds, title) {
        const form = PHONE.matches ? ABOVE : BESIDE, {width, high} = form;
        const size = `0 0 ${width} ${funds.length * high + (form.words ? 62 : 40)}`;
        const about = `${title}. The same figures stand in the table below`;
        const svg = drawn('svg', {class: 'picture', viewBox: size, role: 'img', 'aria-label': about});
        funds.forEach((fund, place) => svg.append(this.ofFund(fund, place * high + 8, form)));
        svg.append(this.legend(funds.length * high + 14, form));
        return svg;
    }

    ofFund(fund, y, {width, left, right, words}) {
        const most = [fund.all, fund.estimated, fund.came].reduce((one, other) => other > one ? other : one, 1n);
        const wide = amount => Math.max(0, Number(amount * 10000n / most) / 10000 * (width - left - right));
        const group = drawn('g', {}), text = (x, at, said, more = {}) => group.append(drawn('text', {x, y: at, ...more}, said));
        const rect = (kind, x, at, size) => group.append(drawn('rect', {class: kind, x, y: at, width: size, height: BAR}));
        const spending = y + 22 + words, revenue = spending + BAR + 6 + words;
        const says = (name, at, said, end) => {
            if (words) return text(left, at - 5, `${name}: ${said}`);
            text(left - 10, at + 14, name, {'text-anchor': 'end'});
            return text(left + wide(end) + 8, at + 14, said);
        };
        text(0, y + 12, fund.name, {class: 'name'});
        let x = left;
        for (const [part] of PARTS) {
            rect(part, x, spending, wide(fund[part]));
            x += wide(fund[part]);
        }
        rect('frame', left, spending, wide(fund.all));
        rect('came', left, revenue, wide(fund.came));
        rect('frame', left, revenue, wide(fund.estimated));
        says('Spending', spending, partOf(fund.spent, fund.all), fund.all);
        says('Revenue', revenue, partOf(fund.came, fund.estimated), fund.came > fund.estimated ? fund.came : fund.estimated);
        return group;
    }

    legend(y, {width, left}) {
        const group = drawn('g', {});
        let x = left;
        for (const [part, said] of [...PARTS, ['came', 'Came in'], ['frame', 'Budget']]) {
            const size = 44 + said.length * 8;
            if (x + size > width) [x, y] = [left, y + 22];
            group.append(drawn('rect', {class: part, x, y, width: 14, height: 14}), drawn('text', {x: x + 20, y: y + 12}, said));
            x += size;
        }
        return group;
    }

    figures(funds, title) {
        const rows = funds.map(fund => row([fund.name, ...['all', 'spent', 'ordered', 'held', 'room', 'estimated', 'came'].map(part => money(fund[part]))]));
        return table(title, ['Fund', ...['Budget', 'Spent', 'Ordered', 'Held', 'Left', 'Estimated revenue', 'Came in'].map(text => [text, true])], rows, 'cards');
    }
}

/** An amount of another one, with its share in whole percent. */
function partOf(part, all) {
    return `${money(part)} of ${money(all)}${all > 0n ? `, ${part * 100n / all}%` : ''}`;
}

/** What a fund comes to. */
function inAll({name, sources, lines}) {
    return {name, ...added(lines), estimated: sum(sources.map(each => each.estimated)), came: sum(sources.map(each => each.came))};
}
