UPDATE instance SET rowtext = 'svc:/system/svc/restarter:default 9 offline - - - 274877906943 0 0 - transient 0 0 0 0 0 0 - - 0 0';
