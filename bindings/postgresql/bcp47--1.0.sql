-- The registry is the file that the setting `bcp47.registry` names; it is read where a session first needs it.
CREATE FUNCTION bcp47_canonical(text) RETURNS text
    AS 'MODULE_PATHNAME', 'canonical_of' LANGUAGE C IMMUTABLE STRICT PARALLEL SAFE;
CREATE FUNCTION bcp47_equal(text, text) RETURNS boolean
    AS 'MODULE_PATHNAME', 'equality_of' LANGUAGE C IMMUTABLE STRICT PARALLEL SAFE;
CREATE FUNCTION bcp47_fault(text) RETURNS text
    AS 'MODULE_PATHNAME', 'fault_of' LANGUAGE C IMMUTABLE STRICT PARALLEL SAFE;
CREATE FUNCTION bcp47_explain(text) RETURNS text
    AS 'MODULE_PATHNAME', 'explanation_of' LANGUAGE C IMMUTABLE STRICT PARALLEL SAFE;
