-- examples/sample-registry.txt is the server's bcp47.registry
CREATE EXTENSION bcp47;
SELECT bcp47_registry();
SELECT bcp47_canonical('zh-yue'), bcp47_equivalent('zh-yue', 'YUE'), bcp47_fault('en_US');
SELECT bcp47_explain('sgn-dd');
SELECT bcp47_canonical('iw', '2024-01-01'), bcp47_fault('x', '2024-01-01'), bcp47_equivalent('iw', 'HE', '2024-01-01');
\set VERBOSITY terse
SELECT bcp47_canonical('iw', '2024-01-02');
\set VERBOSITY default
CREATE TABLE books (tag text);
CREATE INDEX by_any ON books (bcp47_canonical(tag));
CREATE UNIQUE INDEX by_2024 ON books (bcp47_canonical(tag, '2024-01-01'));
INSERT INTO books VALUES ('iw'), ('zh-yue'), ('en_US'), (NULL);
INSERT INTO books VALUES ('HE');
SET bcp47.registry = 'other';
DROP TABLE books;
DROP EXTENSION bcp47;
