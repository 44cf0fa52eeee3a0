-- Compares each answer of the library with PostgreSQL's result for the same text.
CREATE TEMP TABLE beside (words text, otherwise bigint, wanted bigint);
DO $$
DECLARE
    words text;
BEGIN
    FOREACH words IN ARRAY ARRAY[
        'a < b', 'a + b < 100 and s like ''%nitr%'' or a is null', 'not yes and s is not null', 's like ''%ó%'' or s = ''£''',
        'a between b and 2500', 's < ''nitric'' and s <> ''''', 'medium = 7 or yes is null', 's ilike ''ION%''', 'a - b > 0 and yes',
        'f > 1000.25 and f < 5000', 'f * 2 = a', 'r < 2.5', 'r between -1 and f', 'g > 10', 'g = g', 'g < f or g is null', 'g = 0',
        'p > 12.505', 'p between 3 and 1250.5', 'p * 2 < q + 100', 'p = -0.01 or p is null', 'p in (12.5, -20, q)', 'q <> p', 'greatest(p, q) = p',
        'd >= ''2024-02-29''', 'd between ''1999-12-31'' and ''2001-01-01''', 'd > e + 30 or d is null', 'd - e > 19000',
        't < ''2024-01-01 00:00:00''', 't > ''1999-12-31 23:59:59.5'' and t < ''2001-01-01 00:00:00''',
        't is distinct from ''2024-02-29 12:34:56.789012''', 'u is null', 'u is not null and z is null',
        'not (wide is null or u is null)', 'coalesce(u is null, yes)'] LOOP
        EXECUTE format('INSERT INTO beside SELECT %1$L, count(*) FILTER (WHERE yurkije_is(%1$L, given) IS DISTINCT FROM (%1$s)),
            count(*) FILTER (WHERE %1$s) FROM given', words);
    END LOOP;
    FOREACH words IN ARRAY ARRAY['a + b', 'a * 2 - b', 'b / 7', 'medium * 1000', 's', 'f', 'f * 3 - 0.1', 'f / 7', 'r', 'r::float8 * 3', 'g', '-(f + 1)',
        'p', 'p + 1.5', 'p * 3', 'p * q', '-q', 'q - p', 'd', 'd + 30', 'd - medium', 'd - e', 't', 'coalesce(d, ''2000-01-01'')',
        'coalesce(p, 1.55)', 'greatest(d, e)', 'case when yes then f else 0.5 end'] LOOP
        EXECUTE format('INSERT INTO beside SELECT %1$L, count(*) FILTER (WHERE yurkije(%1$L, given) IS DISTINCT FROM (%1$s)::text),
            count(*) FILTER (WHERE (%1$s) IS NOT NULL) FROM given', words);
    END LOOP;
END $$;
SELECT 'PostgreSQL: ' || count(*) || ' expressions over ' || (SELECT count(*) FROM given) || ' rows, ' || sum(wanted) || ' answers true or not null; answered otherwise: ' || sum(otherwise)
FROM beside;
SELECT 'otherwise: ' || words FROM beside WHERE otherwise > 0;
