CREATE FUNCTION yurkije(text, record) RETURNS text AS :'library', 'yurkije_pg_text' LANGUAGE C STRICT IMMUTABLE PARALLEL SAFE;
CREATE FUNCTION yurkije_is(text, record) RETURNS boolean AS :'library', 'yurkije_pg_is' LANGUAGE C STRICT IMMUTABLE PARALLEL SAFE;
CREATE TABLE given AS
    SELECT CASE WHEN i % 10 <> 3 THEN i::bigint * 7919 % 10007 - 5000 END::bigint AS a,
           CASE WHEN i % 10 <> 7 THEN i::bigint * 104729 % 9973 - 5000 END::bigint AS b,
           (i % 200 - 100)::smallint AS small, i % 1000 AS medium, i % 3 = 0 AS yes, i / 4.0::float8 AS f,
           CASE WHEN i % 7 <> 2 THEN (ARRAY['ion foci', 'xylene, mixed isomers', 'nitric oxide', 'iron', '£', '', 'sodium nitrite', 'żółw'])[i * 31 % 8 + 1] END AS s,
           convert_to(i::text, 'UTF8') AS raw,
           CASE WHEN i % 11 <> 5 THEN (i % 64 - 32) / 8.0 END::float4 AS r,
           CASE WHEN i % 9 <> 4 THEN (i::bigint * 7919 % 1000003 - 500000) / 100.0 END::numeric(12,2) AS p, ((i % 977 - 400) / 10000.0)::numeric(5,4) AS q,
           CASE WHEN i % 8 <> 6 THEN date '2024-02-29' + (i::bigint * 31 % 40000 - 20000)::int END AS d, date '1969-12-31' + i % 3 AS e,
           CASE WHEN i % 6 <> 1 THEN timestamp '2024-02-29 12:34:56.789012' - i * interval '1 day 7 hours 0.000013 seconds' END AS t,
           CASE WHEN i % 5 <> 2 THEN md5(i::text)::uuid END AS u, CASE WHEN i % 4 = 2 THEN now() END AS z, 1.5::numeric AS wide,
           CASE i % 5 WHEN 0 THEN 'infinity' WHEN 1 THEN '-infinity' WHEN 2 THEN 'nan' WHEN 3 THEN -0.0 ELSE i / 7.0 END::float8 AS g
    FROM generate_series(0, :rows - 1) i;
ALTER TABLE given ADD COLUMN dropped int;
ALTER TABLE given DROP COLUMN dropped;
