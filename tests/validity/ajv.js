// Validates a document by ajv: node ajv.js SCHEMA DOCUMENT. It compiles the schema first, and asserts no formats.
const fs = require('fs');
const Ajv = require('ajv');
const [schema, document] = process.argv.slice(2).map((file) => JSON.parse(fs.readFileSync(file, 'utf8')));
const ajv = new Ajv({schemaId: '$id', meta: false, validateSchema: false, unknownFormats: 'ignore', format: false});
ajv.addMetaSchema(require('ajv/lib/refs/json-schema-draft-06.json'));
console.log(ajv.compile(schema)(document) ? 'valid' : 'invalid');
