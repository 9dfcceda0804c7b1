// Opens a page of web/tests/answers_page.js in a headless browser, chromium or firefox, and writes what it found: node web/tests/answers.js BROWSER PAGE
const [browser, page] = process.argv.slice(2);
const { start } = await import(`./${browser}.js`);
const tab = await start();
try {
  await tab.open(page);
  console.log((await tab.until("document.title === 'done' && document.body.innerText", 120)).trim());
} finally {
  await tab.close();
}
