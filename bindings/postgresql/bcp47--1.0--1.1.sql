-- SPDX-License-Identifier: MIT OR Apache-2.0
-- What asks the registry that bcp47.registry names may answer otherwise once the server has started with another one: it is
-- STABLE, and serves in no index. What names its registry always answers the same.
DO $$
DECLARE
    it text;
BEGIN
    FOR it IN
        SELECT DISTINCT pg_describe_object(depend.classid, depend.objid, depend.objsubid)
        FROM pg_depend AS depend
        JOIN pg_depend AS member ON member.refclassid = 'pg_extension'::regclass AND member.objid = depend.refobjid
        JOIN pg_extension AS extension ON extension.oid = member.refobjid AND extension.extname = 'bcp47'
        LEFT JOIN pg_attrdef AS value ON depend.classid = 'pg_attrdef'::regclass AND value.oid = depend.objid
        LEFT JOIN pg_attribute AS made ON made.attrelid = value.adrelid AND made.attnum = value.adnum
        WHERE depend.refclassid = 'pg_proc'::regclass AND (depend.classid = 'pg_class'::regclass OR made.attgenerated <> '')
    LOOP
        RAISE WARNING '% does not name its registry: replace it by one that does, else its dump can''t be restored', it;
    END LOOP;
END
$$;
ALTER FUNCTION bcp47_equal(text, text) RENAME TO bcp47_equivalent;
CREATE OR REPLACE FUNCTION bcp47_canonical(tag text) RETURNS text
    AS 'MODULE_PATHNAME', 'canonical_of' LANGUAGE C STABLE STRICT PARALLEL SAFE COST 5;
CREATE FUNCTION bcp47_canonical(tag text, registry text) RETURNS text
    AS 'MODULE_PATHNAME', 'canonical_of' LANGUAGE C IMMUTABLE STRICT PARALLEL SAFE COST 5;
CREATE OR REPLACE FUNCTION bcp47_fault(tag text) RETURNS text
    AS 'MODULE_PATHNAME', 'fault_of' LANGUAGE C STABLE STRICT PARALLEL SAFE COST 5;
CREATE FUNCTION bcp47_fault(tag text, registry text) RETURNS text
    AS 'MODULE_PATHNAME', 'fault_of' LANGUAGE C IMMUTABLE STRICT PARALLEL SAFE COST 5;
CREATE OR REPLACE FUNCTION bcp47_explain(tag text) RETURNS text
    AS 'MODULE_PATHNAME', 'explanation_of' LANGUAGE C STABLE STRICT PARALLEL SAFE COST 1000;
CREATE FUNCTION bcp47_explain(tag text, registry text) RETURNS text
    AS 'MODULE_PATHNAME', 'explanation_of' LANGUAGE C IMMUTABLE STRICT PARALLEL SAFE COST 1000;
CREATE OR REPLACE FUNCTION bcp47_equivalent(first text, second text) RETURNS boolean
    AS 'MODULE_PATHNAME', 'equality_of' LANGUAGE C STABLE STRICT PARALLEL SAFE COST 10;
CREATE FUNCTION bcp47_equivalent(first text, second text, registry text) RETURNS boolean
    AS 'MODULE_PATHNAME', 'equality_of' LANGUAGE C IMMUTABLE STRICT PARALLEL SAFE COST 10;
CREATE FUNCTION bcp47_match(range text, tag text) RETURNS boolean
    AS 'MODULE_PATHNAME', 'match_of' LANGUAGE C STABLE STRICT PARALLEL SAFE COST 10;
CREATE FUNCTION bcp47_match(range text, tag text, registry text) RETURNS boolean
    AS 'MODULE_PATHNAME', 'match_of' LANGUAGE C IMMUTABLE STRICT PARALLEL SAFE COST 10;
CREATE FUNCTION bcp47_best(accept text, tags text) RETURNS text
    AS 'MODULE_PATHNAME', 'best_of' LANGUAGE C STABLE STRICT PARALLEL SAFE COST 100;
CREATE FUNCTION bcp47_best(accept text, tags text, registry text) RETURNS text
    AS 'MODULE_PATHNAME', 'best_of' LANGUAGE C IMMUTABLE STRICT PARALLEL SAFE COST 100;
CREATE FUNCTION bcp47_show(tag text) RETURNS json
    AS 'MODULE_PATHNAME', 'rows_of' LANGUAGE C STABLE STRICT PARALLEL SAFE COST 100;
CREATE FUNCTION bcp47_show(tag text, registry text) RETURNS json
    AS 'MODULE_PATHNAME', 'rows_of' LANGUAGE C IMMUTABLE STRICT PARALLEL SAFE COST 100;
CREATE FUNCTION bcp47_registry() RETURNS text
    AS 'MODULE_PATHNAME', 'registry_of' LANGUAGE C STABLE STRICT PARALLEL SAFE;
CREATE FUNCTION bcp47_with(tag text, kind text, value text) RETURNS text
    AS 'MODULE_PATHNAME', 'replacement_of' LANGUAGE C IMMUTABLE STRICT PARALLEL SAFE COST 5;
CREATE FUNCTION bcp47_part(tag text, kind text) RETURNS text
    AS 'MODULE_PATHNAME', 'part_of' LANGUAGE C IMMUTABLE STRICT PARALLEL SAFE COST 5;
