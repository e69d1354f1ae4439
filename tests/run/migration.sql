UPDATE instance SET rowtext = 'svc:/system/svc/restarter:default 9 maintenance - - - 1073741823 0 0 - transient 0 0 0 0 0 0 - - 0 0';
UPDATE meta SET v = 1 WHERE k = 'version';
DELETE FROM meta WHERE k = 'layout';
