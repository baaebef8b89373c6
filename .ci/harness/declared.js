// Prints the value of an expression over declarations of a script, as JSON. The script is not run and need not export
// them.
//
//     node .ci/harness/declared.js FILE NAME,NAME.. EXPRESSION

const fs = require('fs');

// The text of the declaration of a name. It ends at the first `;` or `}` with which it can be compiled.
function declaration(text, name) {
    const among = `\\[[^\\]=]*\\b${name}\\b[^\\]=]*\\]`;
    const found = text.match(new RegExp(`\\bfunction ${name}\\b|\\bconst (?:${name}|${among}) =`));
    if (!found) throw new Error(`no declaration of ${name}`);
    for (let end = found.index; end < text.length; end++) {
        if (text[end] !== ';' && text[end] !== '}') continue;
        const candidate = text.slice(found.index, end + 1);
        try {
            new Function(candidate);
            return candidate;
        } catch {
            // It goes on.
        }
    }
    throw new Error(`no end of ${name}`);
}

const [file, names, expression] = process.argv.slice(2);
const text = fs.readFileSync(file, 'utf8');
const declarations = names.split(',').map(name => declaration(text, name));
console.log(JSON.stringify(new Function(`${declarations.join('\n')}\nreturn ${expression};`)()));
