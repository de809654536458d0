 LACK -$
