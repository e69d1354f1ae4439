UPDATE meta SET v = 16777216 WHERE k = 'next_instance';
UPDATE meta SET v = 1 WHERE k = 'version';
DELETE FROM meta WHERE k = 'layout';
